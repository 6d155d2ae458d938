;;; What the checks of Emacs share: how one fails, waits, and sees what is said.  -*- lexical-binding: t -*-

(defvar passed 0)
(defvar failed 0)

(defun check (name is-right &rest more)
  (if is-right (setq passed (1+ passed))
    (setq failed (1+ failed))
    (princ (format "FAIL %s %S\n" name more))))

(defun same (name)
  "The client has the buffer's text."
  (check name (equal (theirs) (sulgrevad--text)) (theirs) (sulgrevad--text)))

(defun theirs ()
  "The whole text that the client shows."
  (substring-no-properties (sulgrevad--shown sulgrevad--tag)))

(defun is-answered ()
  "Whether the buffer's file is free, and all of it is loaded."
  (sulgrevad--is-answered sulgrevad--tag))

(defun is-sent ()
  "Whether the host has all."
  (sulgrevad-state-has-all (sulgrevad--state)))

(defun is-broken ()
  "Whether the line is lost."
  (sulgrevad-state-is-broken (sulgrevad--state)))

(defun keys (text)
  "Press keys, with the hooks that a command has.  Then no command is under way."
  (execute-kbd-macro (kbd text))
  (setq this-command nil))

(defun disk (file)
  (with-temp-buffer (let ((coding-system-for-read 'utf-8-unix)) (insert-file-contents file)) (buffer-string)))

(defun wait-for (is-there)
  "Wait until IS-THERE returns non-nil, but no more than 100 seconds.  Return what it does."
  (let ((end (+ (float-time) 100)) found)
    (while (and (not (setq found (funcall is-there))) (< (float-time) end)) (accept-process-output nil 0.05))
    found))

(defvar room nil "The folder of the files, in which the sessions begin.")

(defun kept (name)
  "The texts that stand here of the file NAME.  Their files are removed."
  (mapcar (lambda (file)
            (check "a text that is kept is for its owner alone" (= (file-modes file) #o600) (file-modes file))
            (prog1 (disk file) (delete-file file)))
          (directory-files room t (concat "\\`" (regexp-quote name) "\\.sam-here"))))

(defmacro asked (answer &rest body)
  "Do BODY with a user there, who answers each question with ANSWER.  Return the questions."
  (declare (indent 1))
  `(let ((questions nil) (noninteractive nil))
     (cl-letf (((symbol-function 'yes-or-no-p) (lambda (question) (push question questions) ,answer))) ,@body)
     questions))

(defun said (act)
  "What is said while ACT is called, last first."
  (let (words)
    (cl-letf (((symbol-function 'message) (lambda (&rest more) (when (car more) (push (apply #'format-message more) words)) nil)))
      (funcall act))
    words))

(defun is-said (word words)
  "Whether one of WORDS is a message of ours with WORD in it."
  (cl-some (lambda (one) (and (string-prefix-p "Sulgrevad: " one) (string-search word one))) words))

(defun home ()
  "The folder of the session at the host."
  (expand-file-name (sulgrevad-line-name sulgrevad--line) (expand-file-name "sulgrevad" (getenv "XDG_STATE_HOME"))))

(defun signal-host ()
  "Kill the host, which can begin again from its journal."
  (let ((host (string-to-number (disk (expand-file-name "lock" (home))))))
    (when (equal "samhost" (alist-get 'comm (process-attributes host))) (signal-process host 'KILL))))

(defun kill-host ()
  "Have the host and all that it has of the session be gone."
  (signal-host)
  (delete-directory (home) t))

(defun lose-host ()
  "Kill the host, and wait until that is known."
  (kill-host)
  (wait-for (lambda () (null sulgrevad--client))))

;; The library's times are seconds and more: the checks skip them.

(defvar skipped 0 "Milliseconds that were skipped.")
(defvar skips-pauses t "Whether a pause between two connections is skipped.")

(defun skip (milliseconds)
  "Have so many MILLISECONDS be over for the line."
  (setq skipped (+ skipped milliseconds))
  (sulgrevad-line--on-time sulgrevad--line))

(defun skip-pause ()
  "Skip the pause of a line that waits for its next connection."
  (let ((line sulgrevad--line))
    (when (and skips-pauses line (null (sulgrevad-line-why line)) (null (sulgrevad-line-process line)))
      (skip (or (sulgrevad-client-due-in (sulgrevad-line-client line)) 0)))))

(defun process ()
  "The process that carries the session's bytes."
  (sulgrevad-line-process sulgrevad--line))

(defvar attempts 0 "How many connections of the session were made.")
(advice-add 'sulgrevad-client-make :after (lambda (&rest _) (setq attempts 0)))
(advice-add 'sulgrevad-client-connected :after (lambda (&rest _) (setq attempts (1+ attempts))))

(defun begin (folder)
  "Have FOLDER be where the sessions begin and temporary files are.  A session of a killed Emacs stays but for a minute."
  (random "sulgrevad")
  (advice-add 'sulgrevad-line--now :filter-return (lambda (now) (+ now skipped)))
  (run-with-timer 0.1 0.1 #'skip-pause)
  (setq room (file-name-as-directory folder) temporary-file-directory room sulgrevad-stay-hours 0.02 sulgrevad-patience 30)
  (dolist (buffer (buffer-list)) (with-current-buffer buffer (setq default-directory room))))

(defvar samhost nil "The program.")

(defun path (name)
  "A file of the folder."
  (expand-file-name name room))

(defun made (name text)
  "Have the file NAME hold TEXT.  Return its path."
  (make-directory (file-name-directory (path name)) t)
  (let ((coding-system-for-write 'utf-8-unix)) (write-region text nil (path name) nil 'silent))
  (path name))

(defun relayed ()
  "A command whose line can be cut off and stalled, and is not there while the file `down' is."
  (list "/bin/sh" "-c" "cd \"$0\"; [ ! -e down ] || exit 1; exec 3<&0; \"$@\" <&3 & echo $! >relay; wait $!" room samhost))

(defun signal-line (signal)
  "Send SIGNAL to what relays behind the process of the line, if that runs.  A number of a process that has ended may be another's."
  (let ((relay (string-to-number (disk (path "relay")))) (line (process)))
    (when (and line (eql (process-id line) (alist-get 'ppid (process-attributes relay))))
      (signal-process relay signal))))

(defun cut-line (&optional stays)
  "Have the line break; with STAYS none comes after it."
  (when stays (made "down" ""))
  (wait-for (lambda () (signal-line 'KILL)))
  (wait-for #'is-broken))

(defun mend-line ()
  "Have a line come again, and wait for it."
  (ignore-errors (delete-file (path "down")))
  (wait-for (lambda () (sulgrevad-line-is-open sulgrevad--line))))

(defun refused (act)
  "Why ACT is a user's error, or nil."
  (condition-case why (ignore (funcall act)) (user-error (error-message-string why))))

(defun run (checks &rest words)
  "Do CHECKS with WORDS, or those of them that are in `only', where that is set.  Then print the numbers."
  (dolist (one checks)
    (when (memq one (or (bound-and-true-p only) (list one))) (apply one words)))
  (princ (format "%d passed, %d failed\n" passed failed)))
