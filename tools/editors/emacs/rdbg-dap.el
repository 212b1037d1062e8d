;;; rdbg-dap.el --- Debug FreeRTOS models with rdbg and dap-mode -*- lexical-binding: t; -*-

;; Registers rdbg with dap-mode, and adds the commands that dap-mode lacks: step back, reverse
;; continue, tick, and a line for rdbg.  docs/guides/editors.md shows a session.

;;; Code:

(require 'dap-mode)
(require 'dap-ui)
(require 'rdbg-fw-mode
         (expand-file-name "rdbg-fw-mode.el"
                           (file-name-directory (or load-file-name buffer-file-name))))

;; lsp-treemacs needs this variable, which some versions of treemacs (such as Debian's) lack.
(defvar treemacs-text-scale nil)

;; In a terminal, dap-mode does not show breakpoints by itself.
(face-spec-set 'dap-ui-verified-breakpoint-face '((((type tty)) :foreground "red")))
(face-spec-set 'dap-ui-pending-breakpoint-face '((((type tty)) :foreground "red")))

(defun rdbg-dap--populate (conf)
  "Complete the launch configuration CONF with the adapter and the file of this buffer."
  (setq conf (plist-put conf :dap-server-path (list rdbg-program "dap")))
  (unless (plist-get conf :program)
    (setq conf (plist-put conf :program (or (buffer-file-name) ""))))
  (unless (plist-get conf :cwd)
    (setq conf (plist-put conf :cwd (expand-file-name default-directory))))
  (if (and (equal (plist-get conf :request) "attach") (not (plist-get conf :port)))
      (plist-put conf :port (read-number "Port of rdbg serve or rdbg room: " 7000))
    conf))

(dap-register-debug-provider "rdbg" #'rdbg-dap--populate)

(dap-register-debug-template
 "rdbg: this file" (list :type "rdbg" :request "launch" :name "rdbg"))

(dap-register-debug-template
 "rdbg: this file, unproved" (list :type "rdbg" :request "launch" :name "rdbg" :unproved t))

(dap-register-debug-template
 "rdbg: a port" (list :type "rdbg" :request "attach" :name "rdbg at a port"))

(defvar rdbg-dap--marks nil "Overlays that show at which line each task is.")

(defun rdbg-dap--unmark (&rest _)
  "Remove the marks that show where tasks are."
  (mapc #'delete-overlay rdbg-dap--marks)
  (setq rdbg-dap--marks nil))

(defun rdbg-dap--mark (session answer)
  "Mark the lines where tasks are, as ANSWER lists them, except the current task of SESSION."
  (rdbg-dap--unmark)
  (let* ((frame (dap--debug-session-active-frame session))
         (source (and frame (gethash "source" frame)))
         (path (and source (gethash "path" source)))
         (buffer (and path (find-buffer-visiting path))))
    (when buffer
      (with-current-buffer buffer
        (seq-doseq (thread (gethash "threads" (gethash "body" answer)))
          (let ((name (gethash "name" thread)))
            (when (and (not (eq (gethash "id" thread) (dap--debug-session-thread-id session)))
                       (string-match "\\`\\(.*\\), line \\([0-9]+\\)\\'" name))
              (save-excursion
                (goto-char (point-min))
                (forward-line (1- (string-to-number (match-string 2 name))))
                (let ((mark (make-overlay (line-beginning-position) (line-end-position))))
                  (overlay-put mark 'after-string
                               (propertize (concat "  < " (match-string 1 name)) 'face 'shadow))
                  (push mark rdbg-dap--marks))))))))))

(defun rdbg-dap--ask-where (session)
  "Ask where the tasks of SESSION are, and mark the lines."
  (when (and (equal (plist-get (dap--debug-session-launch-args session) :type) "rdbg")
             (dap--session-running session)
             (dap--debug-session-active-frame session))
    (dap--send-message (dap--make-request "threads")
                       (lambda (answer) (rdbg-dap--mark session answer)) session)))

(add-hook 'dap-stack-frame-changed-hook #'rdbg-dap--ask-where)
(add-hook 'dap-continue-hook #'rdbg-dap--unmark)
(add-hook 'dap-terminated-hook #'rdbg-dap--unmark)

(defun rdbg-step-back ()
  "Undo the last move, and select the task that made it."
  (interactive)
  (dap--step "stepBack" (dap--cur-session-or-die)))

(defun rdbg-reverse-continue ()
  "Go back to the last breakpoint hit, or to the start."
  (interactive)
  (dap--step "reverseContinue" (dap--cur-session-or-die)))

(defun rdbg-tick ()
  "Let a tick pass."
  (interactive)
  (let ((session (dap--cur-session-or-die)))
    (setf (dap--debug-session-thread-id session) 1)
    (dap--step "next" session)))

(defun rdbg-step-task ()
  "Choose a task, and step it by one instruction on its core."
  (interactive)
  (let* ((session (dap--cur-active-session-or-die))
         (threads (gethash "threads" (dap-request session "threads")))
         (names (mapcar (lambda (it) (cons (gethash "name" it) (gethash "id" it))) threads))
         (chosen (completing-read "Step which task: " names nil t)))
    (setf (dap--debug-session-thread-id session) (cdr (assoc chosen names)))
    (dap--step "next" session)))

(defvar rdbg-breaks nil "Alist from sessions to the breakpoints that `rdbg-break' has set.")

(defun rdbg-breaks-send (session names)
  "Set the function breakpoints of SESSION to NAMES, and report what they stand for."
  (setq rdbg-breaks (cons (cons session names) (assq-delete-all session rdbg-breaks)))
  (let* ((asked (vconcat (mapcar (lambda (name) (list :name name)) names)))
         (answer (dap-request session "setFunctionBreakpoints" :breakpoints asked))
         (texts (mapcar (lambda (it) (gethash "message" it)) (gethash "breakpoints" answer))))
    (message "Breakpoints: %s" (if texts (string-join texts "; ") "none"))))

(defun rdbg-break (name)
  "Set a breakpoint on NAME: a goal, changes jobs, sleeps worker, a call, or an instruction."
  (interactive "sStop at (count jobs > 0, changes jobs, sleeps worker, xQueueSend, worker 2): ")
  (let ((session (dap--cur-active-session-or-die)))
    (rdbg-breaks-send session (append (cdr (assq session rdbg-breaks)) (list name)))))

(defun rdbg-break-delete-all ()
  "Delete all breakpoints that `rdbg-break' has set."
  (interactive)
  (rdbg-breaks-send (dap--cur-active-session-or-die) nil))

(defun rdbg-line (line)
  "Send LINE to rdbg, and show the reply."
  (interactive "sCommand for rdbg: ")
  (let ((said (dap-request (dap--cur-active-session-or-die) "evaluate"
                           :expression line :context "repl")))
    (message "%s" (gethash "result" said))))

(defun rdbg-variables ()
  "Show the variables beside the file."
  (interactive)
  (save-selected-window (dap-ui-locals)))

(defun rdbg-go ()
  "Continue to the next breakpoint, or start debugging the file of this buffer."
  (interactive)
  (if (dap--session-running (dap--cur-session))
      (call-interactively #'dap-continue)
    (dap-ui-mode 1)
    (dap-debug (list :type "rdbg" :request "launch" :name "rdbg"))
    (rdbg-variables)))

(defvar rdbg-keys-mode-map
  (let ((map (make-sparse-keymap)))
    (define-key map (kbd "<f5>") #'rdbg-go)
    (define-key map (kbd "<f6>") #'rdbg-reverse-continue)
    (define-key map (kbd "<f7>") #'rdbg-step-back)
    (define-key map (kbd "<f8>") #'dap-next)
    (define-key map (kbd "<f9>") #'dap-breakpoint-toggle)
    (define-key map (kbd "<f11>") #'rdbg-step-task)
    (define-key map (kbd "<f12>") #'rdbg-tick)
    (define-key map (kbd "C-c C-b") #'rdbg-break)
    (define-key map (kbd "C-c C-l") #'rdbg-line)
    (define-key map (kbd "C-c C-v") #'rdbg-variables)
    (define-key map (kbd "C-c C-k") #'dap-disconnect)
    map)
  "The keys of `rdbg-keys-mode'.")

;;;###autoload
(define-minor-mode rdbg-keys-mode
  "Keys to debug with rdbg, for buffers that visit a model.

\\{rdbg-keys-mode-map}"
  :lighter " rdbg")

(defun rdbg-maybe-keys ()
  "Turn on `rdbg-keys-mode' if this file may be a model."
  (when (rdbg-application-p)
    (rdbg-keys-mode 1)))

(add-hook 'find-file-hook #'rdbg-maybe-keys)

(provide 'rdbg-dap)
;;; rdbg-dap.el ends here
