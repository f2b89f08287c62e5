;;; Drives justfile_server from Emacs with eglot: server.sh runs it in batch mode. Opens a justfile with an error, reads
;;; the diagnostics, types, formats, renames, completes, goes to a definition. Prints a line for each part, and ends
;;; Emacs with status 1 if one is otherwise than it should be.
(require 'eglot)
(require 'flymake)
(require 'xref)

(define-derived-mode just-mode prog-mode "just" "Justfiles.")
(add-to-list 'eglot-server-programs `(just-mode . (,(getenv "SERVER"))))
(setq eglot-autoshutdown nil eglot-sync-connect 10 eglot-connect-timeout 10 make-backup-files nil)

(defvar failed nil "Whether something is otherwise than it should be.")

(defun row (what got wanted)
  "Prints whether WHAT is as it should: whether GOT is WANTED."
  (let ((same (equal got wanted)))
    (princ (format "%-40s %s\n" what (if same "as it should" (format "FAILED: %S" got))))
    (unless same (setq failed t))))

(defun soon (holds)
  "Whether HOLDS returns something within ten seconds."
  (let ((end (+ (float-time) 10)) (found (funcall holds)))
    (while (and (not found) (< (float-time) end))
      (accept-process-output nil 0.05)
      (setq found (funcall holds)))
    found))

(defun text ()
  "The lines of the document."
  (split-string (buffer-substring-no-properties (point-min) (point-max)) "\n" t))

(defun go-to (line column)
  "Moves to a LINE and a COLUMN, from 0."
  (goto-char (point-min))
  (forward-line line)
  (forward-char column))

(defun diagnostics ()
  "What is wrong in the document, once a change was sent."
  (eglot--signal-textDocument/didChange)
  (accept-process-output nil 0.2)
  (flymake-start)
  (flymake-diagnostics))

(with-current-buffer (find-file-noselect (getenv "JUSTFILE"))
  (just-mode)
  (let ((default-directory (file-name-directory (getenv "JUSTFILE"))))
    (apply #'eglot (eglot--guess-contact)))
  (switch-to-buffer (current-buffer))
  (flymake-mode 1)
  (row "a diagnostic of the error" (length (soon #'diagnostics)) 1)
  (go-to 0 0)
  (end-of-line)
  (insert "\"")
  (row "none after it is mended" (and (soon (lambda () (null (diagnostics)))) t) t)
  (eglot-format-buffer)
  (row "the formatted text" (text) '("e := \"é𝄞\"" "build: clean" "    echo {{ e }}" "clean:" "    rm -rf out"))
  (go-to 1 8)
  (let ((found (xref-backend-definitions 'eglot (xref-backend-identifier-at-point 'eglot))))
    (row "the definition's line" (and found (xref-location-line (xref-item-location (car found)))) 4))
  (eglot-rename "tidy")
  (row "the name is replaced" (nth 3 (text)) "tidy:")
  (row "and where it is used" (nth 1 (text)) "build: tidy")
  (go-to 1 7)
  (let* ((found (eglot-completion-at-point)) (table (nth 2 found)))
    (row "what can be written after a colon" (mapcar #'substring-no-properties (all-completions "" table)) '("tidy")))
  (go-to 1 8)
  (let ((hover (jsonrpc-request (eglot--current-server-or-lose) :textDocument/hover (eglot--TextDocumentPositionParams))))
    (row "what is known of a name" (plist-get (plist-get hover :contents) :value) "recipe tidy"))
  (let ((server (eglot-current-server)))
    (eglot-shutdown server)
    (row "the server ends" (and (soon (lambda () (not (jsonrpc-running-p server)))) t) t))
  (set-buffer-modified-p nil))
(kill-emacs (if failed 1 0))
