;; Debugs a program as a user of Emacs does, and prints the lines of C at which it stops. The environment has
;; the command, `gud-gdb` or `gdb`, as MODE, its argument as CALL, and a line to gdb that connects as CONNECT.
(require 'gud)
(require 'gdb-mi)

(defun until (predicate)
  "Waits until PREDICATE holds, at most a minute."
  (let ((end (+ (float-time) 60)))
    (while (not (or (funcall predicate) (> (float-time) end)))
      (accept-process-output nil 0.1))))

(defun until-written (text)
  "Waits until the debugger's buffer has TEXT."
  (until (lambda ()
           (with-current-buffer gud-comint-buffer
             (save-excursion (goto-char (point-min)) (search-forward text nil t))))))

(defun type (text)
  "Types a line at gdb's prompt."
  (with-current-buffer gud-comint-buffer
    (goto-char (point-max))
    (insert text)
    (comint-send-input)))

(defun line ()
  "The line of C that Emacs shows."
  (if (equal (getenv "MODE") "gdb") gdb-selected-line (cdr gud-last-last-frame)))

(defun until-line (number)
  "Waits until Emacs shows a line and has asked gdb for all else, and prints the line."
  (until (lambda () (and (equal (line) number) (not gud-running))))
  (while (accept-process-output nil 1))
  (princ (format "line %s\n" (line))))

(funcall (intern (getenv "MODE")) (getenv "CALL"))
(until-written "(gdb) ")
(type "set remotetimeout 60")
(type "cd ..")
(until-written "Working directory")
(type (getenv "CONNECT"))
(until-written "start0 ()")
(type "break drive_for")
(until-written "Breakpoint 1 at")
(let ((first (string-to-number (getenv "LINE"))))
  (with-current-buffer gud-comint-buffer (gud-cont nil))
  (until-line first)
  (with-current-buffer gud-comint-buffer (gud-next 1))
  (until-line (1+ first))
  (type "reverse-next")
  (until-line first))
(set-process-query-on-exit-flag (get-buffer-process gud-comint-buffer) nil)
(kill-process (get-buffer-process gud-comint-buffer))
