;;; viper-language-mode.el --- Viper files, with remduska by eglot  -*- lexical-binding: t; -*-

;;; Commentary:
;; A major mode for the files of Viper: colours, comments, indentation, and the server of `remduska lsp' for eglot.
;; Its name is `viper-language-mode', since `viper-mode' is Emacs' own emulation of vi.

;;; Code:

(defgroup viper-language nil "Files of Viper." :group 'languages)

(defcustom viper-language-server '("remduska" "lsp")
  "The command that starts the server."
  :type '(repeat string))

(defcustom viper-language-indent 2
  "By how many columns a block is indented."
  :type 'integer)

(defvar viper-language-syntax-table
  (let ((table (make-syntax-table)))
    (modify-syntax-entry ?/ ". 124b" table)
    (modify-syntax-entry ?* ". 23" table)
    (modify-syntax-entry ?\n "> b" table)
    (modify-syntax-entry ?_ "_" table)
    (modify-syntax-entry ?$ "_" table)
    (modify-syntax-entry ?' "_" table)
    table))

(defvar viper-language-colours
  `((,(regexp-opt '("field" "predicate" "method" "returns" "requires" "ensures" "invariant" "var" "new" "if" "elseif" "else" "while"
                    "inhale" "exhale" "assert" "assume" "fold" "unfold" "unfolding" "in" "acc" "old")
                  'symbols)
     . font-lock-keyword-face)
    (,(regexp-opt '("null" "true" "false" "write" "none" "wildcard") 'symbols) . font-lock-constant-face)
    (,(regexp-opt '("Int" "Bool" "Ref" "Perm") 'symbols) . font-lock-type-face)
    ("\\_<\\(?:method\\|predicate\\|field\\)\\s-+\\(\\(?:\\sw\\|\\s_\\)+\\)" 1 font-lock-function-name-face)))

(defun viper-language-indent-line ()
  "Indent the line by the braces around it, and a clause once more."
  (interactive)
  (let* ((deep (save-excursion (beginning-of-line) (car (syntax-ppss))))
         (less (save-excursion (back-to-indentation) (looking-at-p "[})]")))
         (clause (save-excursion (back-to-indentation) (looking-at-p "\\(requires\\|ensures\\|invariant\\)\\_>")))
         (column (* viper-language-indent (+ deep (if less -1 0) (if clause 1 0)))))
    (if (> (current-column) (current-indentation))
        (save-excursion (indent-line-to (max 0 column)))
      (indent-line-to (max 0 column)))))

;;;###autoload
(define-derived-mode viper-language-mode prog-mode "Viper"
  "A mode for the files of Viper."
  :syntax-table viper-language-syntax-table
  (setq-local font-lock-defaults '(viper-language-colours))
  (setq-local comment-start "// ")
  (setq-local comment-end "")
  (setq-local indent-line-function #'viper-language-indent-line))

;;;###autoload
(add-to-list 'auto-mode-alist '("\\.\\(vpr\\|sil\\)\\'" . viper-language-mode))

(defvar eglot-server-programs)
(with-eval-after-load 'eglot
  (add-to-list 'eglot-server-programs `(viper-language-mode . ,viper-language-server)))

(provide 'viper-language-mode)
;;; viper-language-mode.el ends here
