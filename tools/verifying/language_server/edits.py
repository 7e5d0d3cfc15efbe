"""Changes of a file that an editor is offered: other names, and the ways to mend an error."""
from .messages import REQUEST_FAILED, Fault


def workspace_edit(client, document, edits):
    """Edits of a file as the editor takes them."""
    if client.can("workspace", "workspaceEdit", "documentChanges"):
        return {"documentChanges": [{"textDocument": {"uri": document.uri, "version": document.version}, "edits": edits}]}
    return {"changes": {document.uri: edits}}


def meant_at(document, position):
    """The token at a position and what it stands for."""
    n = document.token_at(position)
    found = document.names.meant.get(n) if n is not None else None
    if found is None:
        raise Fault(REQUEST_FAILED, "here is no name that is declared in this file")
    return n, found


def prepared_rename(document, position):
    n, found = meant_at(document, position)
    return {"range": document.range_of(n), "placeholder": found.name}


def rename(client, document, position, name):
    """The edits that give what stands at a position another name."""
    _, found = meant_at(document, position)
    if name == found.name:
        return workspace_edit(client, document, [])
    why = document.names.conflict(found, name)
    if why:
        raise Fault(REQUEST_FAILED, why)
    edits = [{"range": document.range_of(it), "newText": name} for it in document.names.uses[found]]
    return workspace_edit(client, document, edits)


def code_actions(client, document, live, range_, only):
    """The ways to mend what is told at a range."""
    if only and not any(it == "quickfix" or it == "" for it in only):
        return []
    actions = []
    for finding in live.findings():
        diagnostic = client.diagnostic(document, finding)
        if not overlap(diagnostic["range"], range_):
            continue
        for it in finding.helps:
            edits = [{"range": range_of_edit(document, edit), "newText": edit.text} for edit in it.edits]
            actions.append({"title": it.words, "kind": "quickfix", "diagnostics": [diagnostic], "isPreferred": len(finding.helps) == 1,
                            "edit": workspace_edit(client, document, edits)})
    return actions


def range_of_edit(document, edit):
    return document.text.range_of_bytes(byte_of_place(document, edit.line, edit.column), byte_of_place(document, edit.end_line, edit.end_column))


def byte_of_place(document, line, column):
    """The byte of a place as the engine counts them."""
    starts = document.source.lines
    if line > len(starts):
        return len(document.text.data)
    return min(starts[line - 1] + column - 1, len(document.text.data))


def overlap(one, other):
    def key(it):
        return it["line"], it["character"]
    return key(one["start"]) <= key(other["end"]) and key(other["start"]) <= key(one["end"])
