;;; sulgrevad-session.el --- what a session does by itself  -*- lexical-binding: t -*-

;;; Commentary:

;; The client goes on, what it tells is done, and what it has for the host is sent: after each command, when bytes come, and by a clock.

;;; Code:

(require 'sulgrevad-buffer)

(declare-function sulgrevad--keep-all "sulgrevad-copies" ())
(declare-function sulgrevad--keep-meanwhile "sulgrevad-copies" ())
(declare-function sulgrevad--keep-modified "sulgrevad-copies" ())
(declare-function sulgrevad--leave "sulgrevad-copies" (&rest _))
(declare-function sulgrevad--show-wished "sulgrevad" ())

(defgroup sulgrevad nil
  "Edit files that lie behind samhost."
  :group 'files
  :prefix "sulgrevad-")

(defcustom sulgrevad-command "samhost"
  "The command that runs samhost, as \"ssh box samhost\"."
  :type 'string)

(defcustom sulgrevad-stay-hours nil
  "For how many hours a session stays at the host that is alone.
nil is samhost's own choice."
  :type '(choice (const :tag "As samhost chooses" nil) number))

(defcustom sulgrevad-patience 3
  "For how many seconds a command waits for a host that is silent."
  :type 'number)

(defconst sulgrevad-all-tags 65536 "How many tags a session has at most.")
(defconst sulgrevad-most-told 10 "How many lines of what was told are noted.")
(defconst sulgrevad-most-kept 100 "How many wishes are noted.")
(defconst sulgrevad-most-silent 60 "For how many seconds a batch Emacs waits for a host that is silent.")
(defconst sulgrevad-untold 0.5 "For how many seconds at most nothing is said of what takes its time.")
(defconst sulgrevad-rest 1 "How many seconds the user rests before a file comes up by itself.")
(defconst sulgrevad--messages 1 "The version of the session's messages.")
(defconst sulgrevad--name-form "\\`[0-9a-f]\\{16\\}\\'"
  "What the name of a session is like.
The host says it, and it becomes a word of a command.")

(defvar sulgrevad--told nil "What was told last, the last first.")
(defvar sulgrevad--complaints nil
  "What the host told of files whose last write failed.
Of each its tag, and in a pair the note and the name that it had.")
(defvar sulgrevad--hidden nil "Tags of files that are none of the user's.")
(defvar sulgrevad--answers nil
  "For what a command waits, in pairs with the answers.
It is `task' and its number, which a note answers; or `line' and that of
a command line: what it printed, or `refused'.")
(defvar sulgrevad--wishes nil "Files that somebody wishes shown: a tag and a line each.")
(defvar sulgrevad--ended-with nil "The status with which the session has ended.")
(defvar sulgrevad--is-named nil "Whether the host has said the first message.")
(defvar sulgrevad--is-taken nil "Whether another terminal has the session.")
(defvar sulgrevad--is-pumping nil "Whether the client goes on.")
(defvar sulgrevad--is-waiting nil "Whether a command waits for the host.")
(defvar sulgrevad--is-between nil "Whether a command of the user's has just ended.")

(defconst sulgrevad--global-hooks
  '((post-command-hook sulgrevad--after-command) (kill-emacs-query-functions sulgrevad--may-end) (kill-emacs-hook sulgrevad--break-off))
  "What is called while there is a session, with the hooks that call it.")

(cl-defstruct (sulgrevad-note (:type list) (:copier nil))
  "A message of the session, by the table of SESSION.md; what its kind has not is 0 or empty."
  kind                     ; a symbol
  request tag code number  ; numbers
  path                     ; a string of bytes
  text)                    ; words for people

(defun sulgrevad--state ()
  "How the client and its line are."
  (sulgrevad-client-describe sulgrevad--client))

(defun sulgrevad--names ()
  "The names of the user's files in the session, with their tags.
The host tells which others it keeps for terminals, as for samterm's
undo: saved, they would be written nowhere."
  (cl-loop for tag from 1 below (sulgrevad-state-tags (sulgrevad--state))
           for name = (sulgrevad-client-name sulgrevad--client tag)
           when (and name (not (memq tag sulgrevad--hidden))) collect (cons name tag)))

;;; Going on

(defun sulgrevad--is-amid ()
  "Whether the user is amid a command for which keys are read.
It may have places in mind, as `query-replace' and a minibuffer's have."
  (or (and this-command (not sulgrevad--is-between)) overriding-terminal-local-map (minibufferp (window-buffer))))

(defun sulgrevad--may-change ()
  "Whether what the host has changed may come into buffers now.
That is between the user's commands, or while one waits for it.  There is
nothing but what command lines do."
  (or sulgrevad--is-waiting (not (sulgrevad--is-amid)) (sulgrevad--is-idle)))

(defun sulgrevad--after-command ()
  "Go on between two commands of the user's."
  (let ((sulgrevad--is-between t)) (sulgrevad--pump)))

(defun sulgrevad--pump ()
  "Have the client go on, do as it told, and send what it has.
No quit comes between, so nothing is half done."
  (unless (or sulgrevad--is-pumping (null sulgrevad--client))
    (condition-case why
        (let ((inhibit-quit t) (sulgrevad--is-pumping t))
          (save-match-data              ; it may be a timer that calls
            (sulgrevad--each #'sulgrevad--check-length)
            (while (and sulgrevad--client (progn (sulgrevad--hand-over-all) sulgrevad--client) (sulgrevad--may-change)
                        (or (sulgrevad--go-on) (and sulgrevad--client (sulgrevad--drop)))))
            (when sulgrevad--client
              (let ((is-idle (sulgrevad--is-idle)))
                (sulgrevad--each (lambda () (sulgrevad--update is-idle))))
              (sulgrevad-client-expect sulgrevad--client sulgrevad--is-waiting)
              (sulgrevad-line-push sulgrevad--line))))
      (sulgrevad-no-memory (message "Sulgrevad: %s" (cadr why))
                           (sulgrevad-line-push sulgrevad--line)
                           (sulgrevad-line-schedule sulgrevad--line sulgrevad-line-retry))
      (sulgrevad-error (sulgrevad--lose (cadr why)))
      (error (message "Sulgrevad: %s" (error-message-string why)))) ; a hook that signals one is not called again
    (when sulgrevad--client             ; whatever came between: what memory was out for stands here alone
      (with-demoted-errors "Sulgrevad: %S" (save-match-data (sulgrevad--keep-meanwhile))))))

(defun sulgrevad--hand-over-all ()
  "Give the client what it doesn't know of all buffers.
Where memory is short for that, an edit that was given before may have to
act first, by which no buffer changes."
  (condition-case why (sulgrevad--each #'sulgrevad--hand-over)
    (sulgrevad-no-memory (unless (sulgrevad-state-is-acting (sulgrevad--state)) (signal (car why) (cdr why))))))

(defun sulgrevad--go-on ()
  "Have the client go on, and do as it told.
Return whether there is something."
  (let ((told (sulgrevad-client-next-event sulgrevad--client)))
    (pcase told
      (`(stepped . ,splices) (sulgrevad--take splices))
      (`(ran ,request ,place ,count) (sulgrevad--answer 'line request (sulgrevad--shown 0 place (+ place count))))
      (`(refused ,why ,request) (sulgrevad--answer 'line request 'refused)
                                (message "Sulgrevad: %s" why))
      (`(answered . ,note) (when (eq 'anew (sulgrevad-note-kind note)) (sulgrevad--hide note))
                           (sulgrevad--answer 'task (sulgrevad-note-request note) note))
      (`(note . ,note) (sulgrevad--meet note)))
    told))

(defun sulgrevad--answer (kind number answer)
  "Keep the ANSWER to the KIND of this NUMBER for the command that waits for it."
  (when-let ((waits (assoc (cons kind number) sulgrevad--answers))) (setcdr waits answer)))

(defun sulgrevad--drop ()
  "Take back a text for which the host left no room.
Return whether there is one.  The kill ring has it."
  (pcase (sulgrevad-client-drop-next sulgrevad--client)
    (`(,tag ,place ,count ,text)
     (sulgrevad--kill-refused text)
     (message "Sulgrevad: %s has no room for what was put in; the kill ring has it" (sulgrevad-client-name sulgrevad--client tag))
     (sulgrevad--take (list (list 'went tag place count)))
     (when-let ((buffer (sulgrevad--buffer-of tag))) (with-current-buffer buffer (sulgrevad--join-steps sulgrevad--undo-taken)))
     t)))

(defun sulgrevad--hear (event what)
  "An EVENT of `sulgrevad-line-make' has come, and WHAT.
Return whether the client can go on."
  (pcase event
    ('lost (sulgrevad--lose what))
    ('told (setq sulgrevad--told (seq-take (cons what sulgrevad--told) sulgrevad-most-told))
           (message "%s" what)))
  (force-mode-line-update t)            ; it tells how the line is
  (if sulgrevad--is-pumping (run-with-timer 0 nil #'sulgrevad--pump) ; it came while bytes were sent
    (sulgrevad--pump))
  (and sulgrevad--client (sulgrevad--may-change)))

(defun sulgrevad--is-idle ()
  "Whether no request waits, and no command line is under way."
  (let ((state (sulgrevad--state)))
    (and (= 0 (sulgrevad-state-waiting state)) (not (sulgrevad-state-is-command-locked state)))))

(defun sulgrevad--is-answered (tag)
  "Whether nothing is under way, and all of the file TAG is here."
  (and (sulgrevad--is-idle) (not (sulgrevad-file-is-locked (sulgrevad--file tag))) (sulgrevad--is-whole tag)))

(defun sulgrevad--is-late ()
  "Whether the line is lost, or an answer of the host is late."
  (or (null sulgrevad--client) (sulgrevad-state-is-late (sulgrevad--state))))

;;; What the host tells

(defun sulgrevad--meet (note)
  "Do as a NOTE of the host has told.
One of a later version has no kind."
  (let ((text (sulgrevad-note-text note)) (tag (sulgrevad-note-tag note)) (kind (sulgrevad-note-kind note)))
    (unless (string-empty-p text) (setq sulgrevad--told (seq-take (cons text sulgrevad--told) sulgrevad-most-told)))
    (pcase kind
      ('session (sulgrevad--meet-name note))
      ((guard (not sulgrevad--is-named)) (sulgrevad--lose "samhost there is of another version"))
      ('ended (setq sulgrevad--ended-with (sulgrevad-note-number note))
              (ignore-errors (sulgrevad-client-acknowledge sulgrevad--client)) ; so that the host need not wait
              (sulgrevad-line-push sulgrevad--line)
              (sulgrevad--lose "the session is over"))
      ('taken-over (setq sulgrevad--is-taken t)
                   (sulgrevad--lose (concat "another terminal has taken the session over: " text)))
      ('shown (setq sulgrevad--wishes
                    (seq-take (append sulgrevad--wishes (list (cons tag (sulgrevad-note-number note)))) sulgrevad-most-kept))
              (run-with-idle-timer sulgrevad-rest nil #'sulgrevad--show-wished))
      ('anew (sulgrevad--hide note))
      ('lost (display-warning 'sulgrevad (concat "samhost: " text) :error)) ; in a buffer that stays
      ((or 'saved 'not-saved) (sulgrevad--meet-written note))
      ((guard (not (string-empty-p text))) (message "samhost: %s" text)))))

(defun sulgrevad--hide (note)
  "Keep in mind that the file of a NOTE is none of the user's."
  (when (< (sulgrevad-note-number note) sulgrevad-all-tags) (cl-pushnew (sulgrevad-note-number note) sulgrevad--hidden)))

(defun sulgrevad--meet-written (note)
  "Say what became of a write, as NOTE has it, and keep in mind why it failed."
  (let* ((tag (sulgrevad-note-tag note)) (name (sulgrevad-client-name sulgrevad--client tag)) (text (sulgrevad-note-text note)))
    (setq sulgrevad--complaints (assq-delete-all tag sulgrevad--complaints))
    (if (eq 'saved (sulgrevad-note-kind note))
        (message "The host has written %s%s" (or name "the file") (if (= 0 (sulgrevad-note-code note)) "" (concat ": " text)))
      (push (cons tag (cons note name)) sulgrevad--complaints)
      (message "samhost: %s" text))))

(defun sulgrevad--meet-name (note)
  "The first NOTE has come, which names the session."
  (let ((name (decode-coding-string (sulgrevad-note-path note) 'utf-8)))
    (setq sulgrevad--is-named t)
    (cond ((/= sulgrevad--messages (sulgrevad-note-number note)) (sulgrevad--lose "samhost there is of another version"))
          ((string-match-p sulgrevad--name-form name) (setf (sulgrevad-line-name sulgrevad--line) name))
          (t (message "The host's name for the session is none, and is not taken")))))

(defun sulgrevad--lose (why)
  "The session is over here, because of WHY.
What the host may not have is kept here."
  (when sulgrevad--client
    (let* ((inhibit-quit t) (line sulgrevad--line)
           (kept (condition-case nil (sulgrevad--keep-all) (error (sulgrevad--keep-modified)))))
      (setq sulgrevad--client nil)
      (dolist (hook sulgrevad--global-hooks) (remove-hook (car hook) (cadr hook)))
      (advice-remove 'kill-emacs #'sulgrevad--leave)
      (sulgrevad--each #'sulgrevad--let-go)
      (sulgrevad-line-close line (or sulgrevad--ended-with sulgrevad--is-taken))
      (setq sulgrevad--line nil)
      (if kept
          (display-warning 'sulgrevad (string-join (cons (concat "Sulgrevad: " why) kept) "; ")) ; it stays, whatever is said next
        (message "Sulgrevad: %s" why)))))

;;; Waiting

(defun sulgrevad--wait (is-there &optional most tell)
  "Go on until IS-THERE is non-nil, and return what that is.
Give up where the session is over, also if another has begun; after MOST
seconds where that is a number; where it is nil, once the host is silent
for `sulgrevad-patience'.  Meanwhile TELL is called now and then."
  (let* ((client sulgrevad--client) (begun (sulgrevad-line--now)) (told begun) found)
    (unwind-protect
        (let ((sulgrevad--is-waiting t))
          (sulgrevad--pump)
          (while (and client (eq client sulgrevad--client) (not (setq found (funcall is-there))) (not sulgrevad--is-pumping)
                      (sulgrevad--has-patience most begun))
            (when (sulgrevad-line-question sulgrevad--line) (sulgrevad-line-answer sulgrevad--line))
            (accept-process-output nil 0.05)
            (when (<= (+ told (* 1000 sulgrevad-untold)) (sulgrevad-line--now))
              (setq told (sulgrevad-line--now))
              (funcall (or tell #'sulgrevad--tell-of-waiting)))
            (sulgrevad--pump))
          found)
      (sulgrevad--pump))))

(defun sulgrevad--await-answer (kind number &optional most tag)
  "Wait for the answer to the KIND of this NUMBER, and return it.
It is nil after MOST, as `sulgrevad--wait' has it.  The file TAG is to be
answered, too, where it is given."
  (let ((answer (list (cons kind number))))
    (push answer sulgrevad--answers)
    (unwind-protect (sulgrevad--wait (lambda () (and (or (null tag) (sulgrevad--is-answered tag)) (cdr answer))) most)
      (setq sulgrevad--answers (delq answer sulgrevad--answers)))))

(defun sulgrevad--has-patience (most begun)
  "Whether to wait on, for MOST as `sulgrevad--wait' has it, since BEGUN.
That is in milliseconds."
  (let ((silence (/ (sulgrevad-state-silence (sulgrevad--state)) 1000.0)))
    (cond ((numberp most) (< (sulgrevad-line--now) (+ begun (* 1000 most))))
          (most (or (not noninteractive) (< silence sulgrevad-most-silent)))
          (t (< silence sulgrevad-patience)))))

(defun sulgrevad--in-words (&optional form)
  "How the line is, in brackets or in FORM, or nothing where it is well."
  (let ((state (and sulgrevad--line (sulgrevad-line-told-state sulgrevad--line))))
    (if state (format (or form " (%s)") state) "")))

(defun sulgrevad--tell-of-waiting ()
  "Say that something waits for the host."
  (let ((message-log-max nil)) (message "Waiting for the host%s; C-g stops" (sulgrevad--in-words))))

(defun sulgrevad--refuse ()
  "Say that the host does not answer, which is to."
  (user-error "That needs the host, which does not answer%s" (sulgrevad--in-words)))

(defun sulgrevad--need-host ()
  "Signal an error where there is no session, or its host does not answer."
  (unless sulgrevad--client (user-error "There is no session; M-x sulgrevad-start begins one"))
  (unless (sulgrevad--wait (lambda () (not (sulgrevad--is-late)))) (sulgrevad--refuse)))

(defun sulgrevad--settle ()
  "Wait until the client has each edit of the buffer, and the host answers."
  (unless (sulgrevad--is-ours) (user-error "The buffer is not that of a file of the session"))
  (let ((tag sulgrevad--tag))
    (unless (sulgrevad--wait (lambda () (and (not (sulgrevad--is-late)) (not (sulgrevad--waits)) (sulgrevad--is-answered tag))))
      (sulgrevad--refuse))))

(provide 'sulgrevad-session)
;;; sulgrevad-session.el ends here
