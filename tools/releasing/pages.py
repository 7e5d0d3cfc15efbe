"""The pages and the help of an installed copy: those of the repository, in which the command is `remduska`, and links lead only to what
the copy has."""
import posixpath
import re

NOT_FOR_USERS = {"docs/map.md", "docs/DECISIONS.md", "docs/proof.md", "docs/rows.md", "docs/tools.md"}
WHOLE = ("docs/", "examples/", "editors/")
SINGLE = ("README.md", "CHANGELOG.md", "LICENSE")


def is_for_users(name):
    """Whether a file of the repository is a page for users, or an example or a picture that such pages show."""
    return name in SINGLE or name.startswith(WHOLE) and name not in NOT_FOR_USERS


def page(name, text, names):
    """A page as an installed copy has it, which has these names."""
    def link(found):
        target = posixpath.normpath(posixpath.join(posixpath.dirname(name), found[2].partition("#")[0]))
        is_there = found[2].startswith(("#", "http")) or target in names or any(it.startswith(f"{target}/") for it in names)
        return found[0] if is_there else found[1]

    return with_command(re.sub(r"(?<!!)\[([^]\n]*)\]\(([^)\s]+)\)", link, text))


def with_command(text):
    """Calls of the scripts of a checkout, as calls of the command on the path."""
    return re.sub(r"(?<![\w/.])(?:\./remduska\b|tools/verify(?= ))", lambda it: "remduska" if it[0][0] == "." else "remduska verify", text)


def help_text(text):
    """The help, without what a checkout alone can do."""
    parts = re.split(r"^(?=# \w+\n)", text, flags=re.M)
    kept = "".join(it for it in parts if not it.startswith("# build\n"))
    kept = re.sub(r"^(?:\./remduska --build |Without a proved program ).*\n", "", kept, flags=re.M)
    return with_command(re.sub(r"\n{3,}", "\n\n", kept))
