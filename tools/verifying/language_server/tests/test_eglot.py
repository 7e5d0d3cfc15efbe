"""Emacs with eglot, without a screen: it opens a file, sees its error, asks, changes it, and has a quick fix applied."""
import glob
import json
import os
import shutil
import subprocess
import tempfile
import time
import unittest

from verifying.program import TOP

from .talking import PATIENCE, READY, WHY_NOT
from .test_neovim import TEXT

EMACS = shutil.which("emacs")
SCRIPT = r"""
(setq inhibit-message t make-backup-files nil create-lockfiles nil)
(dolist (folder (directory-files "/usr/share/emacs/site-lisp/elpa" t "^[a-z]")) (add-to-list 'load-path folder))
(package-initialize)
(require 'json)
(require 'eglot)
(load "@MODE@")
(setq viper-language-server '("@PYTHON@" "@LSP@") eglot-sync-connect 60 eglot-connect-timeout 60)
(add-to-list 'eglot-server-programs (cons 'viper-language-mode viper-language-server))
(find-file "@FOLDER@/get.vpr")
(defvar out nil)
(defun note (name value) (push (cons name value) out))
(defun told () (mapcar #'flymake-diagnostic-text (flymake-diagnostics)))
(defun wait-until (holds)
  (let ((end (+ (float-time) 60)))
    (while (and (not (funcall holds)) (< (float-time) end))
      (eglot--signal-textDocument/didChange)    ; without a screen nobody is idle, and then it is not sent
      (flymake-start)
      (accept-process-output nil 0.1))
    (unless (funcall holds) (error "nothing came: %S" (told)))))
(defun ask (method) (jsonrpc-request (eglot--current-server-or-lose) method (eglot--TextDocumentPositionParams)))
(note "mode" (symbol-name major-mode))
(apply #'eglot (eglot--guess-contact))
(flymake-mode 1)
(wait-until (lambda () (told)))
(note "opened" (vconcat (told)))
(goto-char (point-min))
(search-forward "v := x.val")
(note "hover" (plist-get (plist-get (ask :textDocument/hover) :contents) :value))
(let ((place (plist-get (ask :textDocument/definition) :range)))
  (note "definition" (plist-get (plist-get place :start) :character)))
(search-forward "ue")
(delete-char -1)
(wait-until (lambda () (and (told) (string-match-p "no field valu is declared" (car (told))))))
(backward-char 1)
(let ((actions (eglot-code-actions (line-beginning-position) (line-end-position) "quickfix")))
  (note "action" (plist-get (elt actions 0) :title))
  (eglot--apply-workspace-edit (plist-get (elt actions 0) :edit)))
(note "mended" (buffer-substring-no-properties (line-beginning-position) (line-end-position)))
(goto-char (point-min))
(search-forward "ensures v == 1")
(replace-match "ensures acc(x.value) && v == x.value")
(goto-char (point-min))
(while (search-forward "//" nil t) (replace-match "  //"))
(indent-region (point-min) (point-max))
(note "text" (buffer-substring-no-properties (point-min) (point-max)))
(wait-until (lambda () (null (told))))
(set-buffer-modified-p nil)
(eglot-shutdown (eglot--current-server-or-lose))
(with-temp-file "@FOLDER@/out" (insert (json-encode out)))
"""


@unittest.skipUnless(EMACS and glob.glob("/usr/share/emacs/site-lisp/elpa/eglot-*"), "emacs with eglot is not installed")
@unittest.skipUnless(READY, WHY_NOT)
class Eglot(unittest.TestCase):
    def test_a_session(self):
        with tempfile.TemporaryDirectory() as folder:
            with open(os.path.join(folder, "get.vpr"), "w", encoding="utf-8") as it:
                it.write(TEXT)
            script = os.path.join(folder, "session.el")
            words = {"@FOLDER@": folder, "@PYTHON@": shutil.which("python3"), "@LSP@": os.path.join(TOP, "tools", "lsp"),
                     "@MODE@": os.path.join(TOP, "editors", "emacs", "viper-language-mode.el")}
            text = SCRIPT
            for name, value in words.items():
                text = text.replace(name, value)
            with open(script, "w", encoding="utf-8") as it:
                it.write(text)
            done = subprocess.run([EMACS, "--batch", "-Q", "-l", script], stdout=subprocess.PIPE, stderr=subprocess.STDOUT, stdin=subprocess.DEVNULL,
                                  env={**os.environ, "HOME": folder, "TMPDIR": folder}, timeout=400)
            self.assertEqual(done.returncode, 0, done.stdout.decode(errors="replace"))
            with open(os.path.join(folder, "out"), encoding="utf-8") as it:
                out = json.load(it)
            self.wait_for_the_end(folder)
        self.check(out)

    def wait_for_the_end(self, folder):
        """Emacs does not wait until the server has cleaned up."""
        end = time.monotonic() + PATIENCE
        while glob.glob(os.path.join(folder, "remduska-lsp-*")) and time.monotonic() < end:
            time.sleep(0.05)
        self.assertEqual(glob.glob(os.path.join(folder, "remduska-lsp-*")), [])

    def check(self, out):
        self.assertEqual(out["mode"], "viper-language-mode")
        self.assertEqual(len(out["opened"]), 1)
        self.assertIn("a postcondition of `get` might not hold at the end of the body", out["opened"][0])
        self.assertIn("field value: Int", out["hover"])
        self.assertEqual(out["definition"], 6)
        self.assertEqual((out["action"], out["mended"]), ("did you mean `value`?", "  v := x.value"))
        self.assertIn("\n  // 😀\n", out["text"])


if __name__ == "__main__":
    unittest.main()
