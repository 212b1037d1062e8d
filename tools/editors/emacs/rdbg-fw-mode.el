;;; rdbg-fw-mode.el --- Major mode for rdbg models (.fw) -*- lexical-binding: t; -*-

;; A major mode for .fw files, and a flymake backend that reports errors in them, and in JSON models,
;; while you type.  It needs only Emacs and rdbg; rdbg-dap.el has the debugger.

;;; Code:

(require 'flymake)

(defun rdbg--starts-p (path)
  "Return non-nil if PATH is an executable file."
  (and (file-regular-p path) (file-executable-p path)))

(defvar rdbg-program
  (let* ((here (file-name-directory (file-truename (or load-file-name buffer-file-name))))
         (checkout (expand-file-name "../../../rdbg" here))
         (installed (expand-file-name "../../../../bin/rdbg" here)))
    (cond ((rdbg--starts-p checkout) checkout)
          ((rdbg--starts-p installed) installed)
          (t "rdbg")))
  "The rdbg program: by default that of the checkout or installation that contains this file.")

(defconst rdbg-fw-lines
  '("cores" "notes" "tick" "profile" "queue" "stream" "message" "group" "semaphore" "mutex" "task"
    "interrupt" "const")
  "Words that begin a declaration; `set' is another.")

(defconst rdbg-fw-blocks
  '("loop" "while" "if" "else" "end" "break" "continue" "goto" "wait")
  "Words of control flow.")

(defconst rdbg-fw-instructions
  '("add" "move" "data" "pack" "unpack" "jump" "jumpz" "send" "front" "recv" "peek" "over" "qreset"
    "count" "spaces" "scount" "sspaces" "mspaces" "setadd" "setdel" "select" "swrite" "sread" "sreset" "strig" "mwrite" "mread"
    "mreset" "mnext" "notify" "query" "take" "give" "nwait" "nclear" "vclear" "gset" "gclear" "gget"
    "gwait" "gsync")
  "Words of instructions; `set' is another.")

(defconst rdbg-fw-operands
  '("length" "item" "size" "trigger" "members" "priority" "given" "times" "apart" "after" "any" "all"
    "keep" "clear" "none" "bits" "inc" "dec" "setif" "max" "not")
  "Words that follow the first word of a line.")

(defun rdbg-fw--words (words &optional before)
  "Return a regexp that matches any of WORDS after the regexp BEFORE."
  (concat (or before "") "\\_<" (regexp-opt words t) "\\_>"))

(defvar rdbg-fw-font-lock
  `((,(concat (rdbg-fw--words rdbg-fw-lines "^[ \t]*") "\\(?:[ \t]+\\([A-Za-z_][A-Za-z0-9_]*\\)\\)?")
     (1 font-lock-type-face) (2 font-lock-variable-name-face nil t))
    ("^[ \t]*\\(set\\)[ \t]+\\([A-Za-z_][A-Za-z0-9_]*\\)[ \t]+length\\_>"
     (1 font-lock-type-face) (2 font-lock-variable-name-face))
    ("^[ \t]*\\(#define\\)[ \t]+\\([A-Za-z_][A-Za-z0-9_]*\\)"
     (1 font-lock-type-face) (2 font-lock-constant-face))
    ("^[ \t]*\\([A-Za-z_][A-Za-z0-9_]*\\):" 1 font-lock-function-name-face)
    ("\\_<\\(?:goto\\|jump\\)[ \t]+\\([A-Za-z_][A-Za-z0-9_]*\\)" 1 font-lock-function-name-face)
    ("\\_<r[0-7]\\_>" . font-lock-variable-name-face)
    ("\\_<\\(?:portMAX_DELAY\\|\\(?:0[xX][0-9a-fA-F]+\\|[0-9]+\\)[uUlL]*\\)\\_>"
     . font-lock-constant-face)
    (,(rdbg-fw--words rdbg-fw-blocks) . font-lock-keyword-face)
    (,(rdbg-fw--words (cons "set" rdbg-fw-instructions)) . font-lock-builtin-face)
    (,(rdbg-fw--words rdbg-fw-operands) . font-lock-preprocessor-face))
  "Font lock rules of `rdbg-fw-mode'.")

(defvar rdbg-fw-mode-syntax-table
  (let ((table (make-syntax-table)))
    (modify-syntax-entry ?/ ". 124b" table)
    (modify-syntax-entry ?* ". 23" table)
    (modify-syntax-entry ?# "< b" table)
    (modify-syntax-entry ?\n "> b" table)
    (modify-syntax-entry ?_ "_" table)
    table)
  "Syntax table: comments are those of C, and `#' to the end of the line.")

(defconst rdbg-fw--define (syntax-propertize-rules ("\\(#\\)define\\_>" (1 ".")))
  "Syntax rule by which a `#define' is not a comment.")

(defun rdbg-fw--depth ()
  "Return the number of blocks that are open at this line, or nil outside a task."
  (save-excursion
    (let ((end (point)) (depth 0))
      (when (re-search-backward "^[ \t]*task\\_>" nil t)
        (forward-line)
        (while (< (point) end)
          (cond ((looking-at "[ \t]*\\(?:loop\\|while\\|if\\)\\_>")
                 (unless (looking-at ".*\\_<\\(?:goto\\|jump\\|break\\|continue\\)\\_>")
                   (setq depth (1+ depth))))
                ((looking-at "[ \t]*end\\_>\\(?:[ \t]+task\\_>\\)?")
                 (unless (string-suffix-p "task" (match-string 0))
                   (setq depth (max 0 (1- depth))))))
          (forward-line))
        depth))))

(defun rdbg-fw-indent ()
  "Indent this line by four columns in a task, and by four more for each block."
  (interactive)
  (let* ((depth (save-excursion (beginning-of-line) (rdbg-fw--depth)))
         (words (save-excursion (back-to-indentation) (buffer-substring (point) (line-end-position))))
         (is-top (string-match-p
                  (concat "\\`\\(?:" (regexp-opt rdbg-fw-lines) "\\_>\\|#\\|[A-Za-z_]\\w*:"
                          "\\|set[ \t]+\\w+[ \t]+length\\_>\\)")
                  words))
         (closes (string-match-p "\\`\\(?:else\\|end[ \t]*;?[ \t]*\\(?://.*\\)?\\)\\'" words))
         (column (cond ((or is-top (not depth)) 0)
                       ((and closes (> depth 0)) (* 4 depth))
                       (t (* 4 (1+ depth))))))
    (save-excursion (indent-line-to column))
    (when (< (current-column) column)
      (back-to-indentation))))

(defvar-local rdbg-check--process nil "The process that checks this buffer.")

(defun rdbg-check--found (source value)
  "Return flymake diagnostics for the buffer SOURCE from VALUE, the output of rdbg check."
  (mapcar
   (lambda (fault)
     (let ((region (flymake-diag-region source (gethash "line" fault) (gethash "column" fault))))
       (flymake-make-diagnostic
        source (car region) (cdr region)
        (if (equal (gethash "severity" fault) "note") :note :error)
        (gethash "message" fault))))
   (gethash "faults" (elt (gethash "files" value) 0))))

(defun rdbg-check--ended (source report process)
  "Call REPORT with the errors that PROCESS found in the buffer SOURCE, once it has ended."
  (when (memq (process-status process) '(exit signal))
    (unwind-protect
        (when (and (buffer-live-p source)
                   (eq process (buffer-local-value 'rdbg-check--process source)))
          (with-current-buffer (process-buffer process)
            (goto-char (point-min))
            (condition-case wrong
                (funcall report (rdbg-check--found source (json-parse-buffer :array-type 'list)))
              (error (funcall report :panic :explanation (error-message-string wrong))))))
      (kill-buffer (process-buffer process)))))

(defun rdbg-check-flymake (report &rest _)
  "Check this buffer with rdbg, and call REPORT with the result (a flymake backend)."
  (when (process-live-p rdbg-check--process)
    (kill-process rdbg-check--process))
  (let ((source (current-buffer))
        (name (file-name-nondirectory (or buffer-file-name "buffer.fw"))))
    (setq rdbg-check--process
          (make-process
           :name "rdbg check" :noquery t :connection-type 'pipe
           :buffer (generate-new-buffer " *rdbg check*")
           :stderr (get-buffer-create " *rdbg check errors*")
           :command (list rdbg-program "check" "--json" "--name" name "-")
           :sentinel (lambda (process _) (rdbg-check--ended source report process))))
    (save-restriction
      (widen)
      (process-send-region rdbg-check--process (point-min) (point-max)))
    (process-send-eof rdbg-check--process)))

(defun rdbg-check-here ()
  "Report errors in the model of this buffer while you type."
  (add-hook 'flymake-diagnostic-functions #'rdbg-check-flymake nil t)
  (flymake-mode 1))

(defun rdbg-application-p ()
  "Return non-nil if this file may be a model: .fw, or JSON that contains \"tasks\"."
  (and buffer-file-name
       (or (string-suffix-p ".fw" buffer-file-name)
           (and (string-suffix-p ".json" buffer-file-name)
                (save-excursion
                  (goto-char (point-min))
                  (search-forward "\"tasks\"" nil t))))))

(defun rdbg-maybe-check ()
  "Report errors while you type if this is JSON that may be a model."
  (when (and (rdbg-application-p) (not (derived-mode-p 'rdbg-fw-mode)))
    (rdbg-check-here)))

;;;###autoload
(define-derived-mode rdbg-fw-mode prog-mode "fw"
  "Major mode for rdbg models."
  (setq-local comment-start "// " comment-end "" indent-tabs-mode nil
              comment-start-skip "\\(?://+\\|/\\*+\\|#+\\)[ \t]*"
              syntax-propertize-function rdbg-fw--define
              indent-line-function #'rdbg-fw-indent flymake-diagnostic-functions nil
              font-lock-defaults '(rdbg-fw-font-lock))
  (rdbg-check-here))

;;;###autoload
(add-to-list 'auto-mode-alist '("\\.fw\\'" . rdbg-fw-mode))
(add-hook 'find-file-hook #'rdbg-maybe-check)

(provide 'rdbg-fw-mode)
;;; rdbg-fw-mode.el ends here
