" Colours of Viper.
if exists('b:current_syntax') | finish | endif
syntax keyword viperDeclaration field predicate method returns var
syntax keyword viperContract requires ensures invariant
syntax keyword viperStatement if elseif else while inhale exhale assert assume fold unfold new
syntax keyword viperTerm unfolding in acc old
syntax keyword viperConstant null true false write none wildcard
syntax keyword viperType Int Bool Ref Perm
syntax match viperNumber /\<\d\+\>/
syntax match viperComment +//.*$+ contains=@Spell
syntax region viperComment start=+/\*+ end=+\*/+ contains=@Spell
highlight default link viperDeclaration Structure
highlight default link viperContract PreProc
highlight default link viperStatement Statement
highlight default link viperTerm Keyword
highlight default link viperConstant Constant
highlight default link viperType Type
highlight default link viperNumber Number
highlight default link viperComment Comment
let b:current_syntax = 'viper'
