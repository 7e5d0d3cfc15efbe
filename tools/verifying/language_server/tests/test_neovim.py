"""Neovim with its own client, without a screen: it opens a file, changes it, has a quick fix applied, and asks."""
import json
import os
import shutil
import subprocess
import tempfile
import unittest

from verifying.program import TOP

from .talking import READY, WHY_NOT

NEOVIM = shutil.which("nvim")
TEXT = """field value: Int
method get(x: Ref) returns (v: Int)
  requires acc(x.value)
  ensures v == 1
{
  // 😀
  v := x.value
}
"""
SCRIPT = """
local out, folder = {}, "@FOLDER@"
vim.cmd("edit " .. folder .. "/get.vpr")
local client = vim.lsp.start_client({
  name = "remduska", cmd = { "@PYTHON@", "@LSP@" }, root_dir = folder, init_options = { seconds = 30 },
})
vim.lsp.buf_attach_client(0, client)
local function wait(what, holds)
  if not vim.wait(60000, holds, 20) then error("nothing came: " .. what) end
end
local function told()
  return vim.tbl_map(function(it) return it.message end, vim.diagnostic.get(0))
end
local function ask(method, more)
  local params = vim.tbl_extend("force", vim.lsp.util.make_position_params(0, "utf-16"), more or {})
  return vim.lsp.buf_request_sync(0, method, params, 20000)[client].result
end
wait("an error", function() return #vim.diagnostic.get(0) > 0 end)
out.opened = told()
out.line = vim.diagnostic.get(0)[1].lnum
vim.api.nvim_win_set_cursor(0, { 7, 2 })
out.hover = ask("textDocument/hover").contents.value
vim.api.nvim_win_set_cursor(0, { 7, 9 })
out.definition = ask("textDocument/definition").range.start
local function lenses()
  return vim.tbl_map(function(it) return it.command.title end, ask("textDocument/codeLens"))
end
wait("the lens", function() return vim.tbl_contains(lenses(), "fails: show run") end)
vim.api.nvim_buf_set_lines(0, 6, 7, true, { "  v := x.valeu" })
wait("the error of a name", function() return #vim.diagnostic.get(0) > 0 and told()[1]:find("valeu") ~= nil end)
out.changed = told()
local actions = ask("textDocument/codeAction", {
  range = { start = { line = 6, character = 9 }, ["end"] = { line = 6, character = 14 } }, context = { diagnostics = {} } })
out.action = actions[1].title
vim.lsp.util.apply_workspace_edit(actions[1].edit, "utf-16")
out.mended = vim.api.nvim_buf_get_lines(0, 6, 7, true)[1]
vim.lsp.util.apply_workspace_edit(ask("textDocument/rename", { newName = "worth" }), "utf-16")
out.renamed = { vim.api.nvim_buf_get_lines(0, 0, 1, true)[1], vim.api.nvim_buf_get_lines(0, 6, 7, true)[1] }
vim.api.nvim_buf_set_lines(0, 3, 4, true, { "  ensures v == x.worth" })
wait("the error of the new clause", function() return #vim.diagnostic.get(0) == 1 and told()[1]:find("worth") ~= nil end)
vim.api.nvim_buf_set_lines(0, 2, 4, true, { "  requires acc(x.worth)", "  ensures acc(x.worth) && v == x.worth" })
wait("no error", function() return #vim.diagnostic.get(0) == 0 end)
out.proved = vim.wait(60000, function()
  return vim.tbl_contains(lenses(), "proved: keep certificate")
end, 50)
local file = io.open(folder .. "/out", "w")
file:write(vim.json.encode(out))
file:close()
vim.lsp.stop_client(client)
vim.wait(5000, function() return vim.lsp.client_is_stopped(client) end)
vim.cmd("qall!")
"""


@unittest.skipUnless(NEOVIM, "neovim is not installed")
@unittest.skipUnless(READY, WHY_NOT)
class Neovim(unittest.TestCase):
    def test_a_session(self):
        with tempfile.TemporaryDirectory() as folder:
            with open(os.path.join(folder, "get.vpr"), "w", encoding="utf-8") as it:
                it.write(TEXT)
            script = os.path.join(folder, "session.lua")
            with open(script, "w", encoding="utf-8") as it:
                it.write(SCRIPT.replace("@FOLDER@", folder).replace("@PYTHON@", shutil.which("python3"))
                         .replace("@LSP@", os.path.join(TOP, "tools", "lsp")))
            done = subprocess.run([NEOVIM, "--headless", "--clean", "-n", "-c", f"luafile {script}", "-c", "cquit 3"],
                                  stdout=subprocess.PIPE, stderr=subprocess.STDOUT, stdin=subprocess.DEVNULL,
                                  env={**os.environ, "HOME": folder, "TMPDIR": folder}, timeout=300)
            self.assertEqual(done.returncode, 0, done.stdout.decode(errors="replace"))
            with open(os.path.join(folder, "out"), encoding="utf-8") as it:
                out = json.load(it)
            left = [it for it in os.listdir(folder) if it.startswith("remduska-lsp-")]
        self.check(out)
        self.assertEqual(left, [])

    def check(self, out):
        self.assertEqual((len(out["opened"]), out["line"]), (1, 3))
        self.assertIn("a postcondition of `get` might not hold at the end of the body: `v == 1` might be false", out["opened"][0])
        self.assertIn("v: Int  // return of get", out["hover"])
        self.assertIn("`v` =", out["hover"])
        self.assertEqual(out["definition"], {"line": 0, "character": 6})
        self.assertIn("no field valeu is declared", out["changed"][0])
        self.assertEqual((out["action"], out["mended"]), ("did you mean `value`?", "  v := x.value"))
        self.assertEqual(out["renamed"], ["field worth: Int", "  v := x.worth"])
        self.assertTrue(out["proved"])


if __name__ == "__main__":
    unittest.main()
