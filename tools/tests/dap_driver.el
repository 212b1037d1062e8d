;;; dap_driver.el --- drives dap-mode in batch, for the tests -*- lexical-binding: t; -*-

;; Each step of a session is made by dap-mode's own functions; what comes of it is printed, a line
;; each, for the test to look at.

;;; Code:

(setq dap-breakpoints-file (expand-file-name "breakpoints" (getenv "RDBG_SCRATCH"))
      dap-auto-show-output nil
      lsp-session-file (expand-file-name "session" (getenv "RDBG_SCRATCH")))
(require 'dap-mode)
(require 'dap-ui)
(load (expand-file-name "../editors/emacs/rdbg-dap.el" (file-name-directory load-file-name)) nil t)

(defvar drive-patience 60 "So many seconds anything may take.")
(defvar drive-reason nil "Why the target stopped last.")

(advice-add 'dap--on-event :before
            (lambda (_session event)
              (when (equal (gethash "event" event) "stopped")
                (setq drive-reason (gethash "body" event)))))

(defun drive-say (form &rest values)
  "Print a line for the test: FORM with VALUES."
  (princ (concat (apply #'format form values) "\n")))

(defun drive-until (holds)
  "Wait until the function HOLDS answers something."
  (let ((end (+ (float-time) drive-patience)) found)
    (while (and (not (setq found (funcall holds))) (< (float-time) end))
      (accept-process-output nil 0.02))
    (or found (error "It doesn't come"))))

(defun drive-session () "The session." (dap--cur-session))

(defun drive-stopped ()
  "Wait for a stop, and print why, in which thread, and the text of the line where point is."
  (drive-until (lambda () (dap--debug-session-active-frame (drive-session))))
  (drive-say "%s | %s | %s" (gethash "reason" drive-reason) (gethash "description" drive-reason)
             (string-trim (thing-at-point 'line t))))

(defun drive-open (file)
  "Open FILE, without breakpoints."
  (find-file file)
  (dap-breakpoint-delete-all)
  (goto-char (point-min)))

(defun drive-at (text)
  "Go to TEXT in the file."
  (goto-char (point-min))
  (search-forward text)
  (beginning-of-line))

(defun drive-break (text &optional condition)
  "Set a breakpoint where TEXT stands, with CONDITION where one is given."
  (save-excursion
    (drive-at text)
    (dap-breakpoint-add)
    (when condition
      (cl-letf (((symbol-function 'read-string) (lambda (&rest _) condition)))
        (dap-breakpoint-condition buffer-file-name (dap--get-breakpoint-at-point))))))

(defun drive-log (text message)
  "Set a log point where TEXT stands, which says MESSAGE."
  (save-excursion
    (drive-at text)
    (dap-breakpoint-add)
    (cl-letf (((symbol-function 'read-string) (lambda (&rest _) message)))
      (dap-breakpoint-log-message buffer-file-name (dap--get-breakpoint-at-point)))))

(defun drive-launch (&rest more)
  "Debug the file of this buffer, with MORE arguments of launch."
  (dap-debug (append more (list :type "rdbg" :request "launch" :name "rdbg")))
  (drive-stopped))

(defun drive-attach (port)
  "Attach to PORT."
  (dap-debug (list :type "rdbg" :request "attach" :name "rdbg" :port port))
  (drive-stopped))

(defun drive-thread (name)
  "Make the task NAME the current thread, as `dap-switch-thread' does."
  (let ((before (dap--debug-session-active-frame (drive-session))))
    (cl-letf (((symbol-function 'completing-read)
               (lambda (_prompt choices &rest _)
                 (seq-find (lambda (it) (string-prefix-p (concat name ":") it)) choices))))
      (dap-switch-thread)
      (drive-until (lambda ()
                     (not (eq before (dap--debug-session-active-frame (drive-session)))))))))

(defun drive-continue ()
  "Continue, and wait for the stop."
  (call-interactively #'dap-continue)
  (drive-stopped))

(defun drive-step (&optional name)
  "Step the task NAME, or the one at hand."
  (when name (drive-thread name))
  (call-interactively #'dap-next)
  (drive-stopped))

(defun drive-out () "Step out." (call-interactively #'dap-step-out) (drive-stopped))

(defun drive-back () "Step back." (rdbg-step-back) (drive-stopped))

(defun drive-reverse () "Go back to a breakpoint." (rdbg-reverse-continue) (drive-stopped))

(defun drive-tick () "A tick." (rdbg-tick) (drive-stopped))

;; (an error in a filter is a message in a window, and the end of Emacs in batch)
(defvar drive-error nil "What dap-mode said was wrong last.")

(advice-add 'dap--create-filter-function :filter-return
            (lambda (filter)
              (lambda (process text)
                (condition-case wrong (funcall filter process text)
                  (error (setq drive-error wrong))))))

(defmacro drive-refused (&rest body)
  "Do BODY, which is refused, and print why and where the target stands."
  `(progn
     (setq drive-error nil)
     ,@body
     (drive-until (lambda () drive-error))
     (drive-say "refused: %s" (error-message-string drive-error))))

(defun drive-stop-where (name)
  "Stop where NAME is so, too."
  (let ((inhibit-message t)) (rdbg-break name)))

(defun drive-key (key &optional chosen)
  "Press KEY, and where it asks for a task answer CHOSEN; wait for the stop, but not behind F9."
  (cl-letf (((symbol-function 'completing-read)
             (lambda (_prompt choices &rest _)
               (car (seq-find (lambda (it) (string-prefix-p (concat chosen ":") (car it))) choices)))))
    (let ((inhibit-message t))
      (call-interactively (lookup-key rdbg-keys-mode-map (kbd key)))))
  (unless (equal key "<f9>")
    (drive-stopped)))

(defun drive-line (line)
  "Tell rdbg LINE, and print what it says."
  (drive-say "%s" (let ((inhibit-message t)) (rdbg-line line))))

(defun drive-restart ()
  "Begin again."
  (let ((inhibit-message t)) (dap-debug-restart))
  (drive-stopped))

(defun drive-variables (reference)
  "The variables that stand in REFERENCE."
  (gethash "variables" (dap-request (drive-session) "variables" :variablesReference reference)))

(defun drive-scope (name)
  "The number of the scope NAME of the current frame."
  (let* ((frame (gethash "id" (dap--debug-session-active-frame (drive-session))))
         (scopes (gethash "scopes" (dap-request (drive-session) "scopes" :frameId frame))))
    (gethash "variablesReference"
             (seq-find (lambda (it) (equal (gethash "name" it) name)) scopes))))

(defun drive-variable (scope name)
  "The variable NAME of SCOPE."
  (seq-find (lambda (it) (equal (gethash "name" it) name)) (drive-variables (drive-scope scope))))

(defun drive-show (scope name)
  "Print the variable NAME of SCOPE."
  (drive-say "%s = %s" name (gethash "value" (drive-variable scope name))))

(defun drive-put (scope name value)
  "Set the variable NAME of SCOPE to VALUE."
  (dap-request (drive-session) "setVariable"
               :variablesReference (drive-scope scope) :name name :value value))

(defun drive-output ()
  "Print the output so far."
  (drive-say "%s" (with-current-buffer (dap--debug-session-output-buffer (drive-session))
                    (string-trim (buffer-string)))))

(defun drive-marks ()
  "Print the lines behind which tasks are shown, once they are."
  (drive-until (lambda () rdbg-dap--marks))
  (dolist (mark (seq-sort-by #'overlay-start #'< rdbg-dap--marks))
    (with-current-buffer (overlay-buffer mark)
      (drive-say "%s%s" (string-trim (buffer-substring (overlay-start mark) (overlay-end mark)))
                 (overlay-get mark 'after-string)))))

(defun drive-end ()
  "Disconnect, and wait for the end."
  (let ((session (drive-session)))
    (call-interactively #'dap-disconnect)
    (drive-until (lambda () (eq (dap--debug-session-state session) 'terminated)))
    (drive-say "terminated")))
