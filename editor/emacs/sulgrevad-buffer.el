;;; sulgrevad-buffer.el --- a buffer is the text that the client shows  -*- lexical-binding: t -*-

;;; Commentary:

;; Each buffer is a copy of the text that the client shows, a character for each rune.  The two don't drift apart:
;; - `after-change-functions' gives each edit to the client at once, whatever is locked or broken.
;; - What the host changes comes as splices, step by step, and each goes into the buffer before the next edit.
;; - Some code changes a buffer without that hook (`inhibit-modification-hooks').  So the buffer's tick is compared before each change and
;;   round each step.  What the client was not given is found by comparing the buffer with the client's text, and goes as one edit.
;; - A hook can't refuse a change: Emacs takes off a hook that signals an error.  So what the client refuses goes back afterwards, and the
;;   kill ring has it.
;; - Where memory is out, an edit is not given and nothing is taken in.  Both are tried again a moment later.
;; - What is not loaded yet of a long text that the host put in has signs in its place.  They can't be changed, nor be put in elsewhere.

;;; Code:

(require 'sulgrevad-line)

(declare-function sulgrevad-mode "sulgrevad" (&optional arg))

(defconst sulgrevad-most-runes 1000000 "How many runes a text has at most.")
(defconst sulgrevad--gap-sign ?· "What stands for each rune that is not loaded.")
(defconst sulgrevad-most-unsent 0.5 "After how many seconds an edit is sent that no command has made.")

(defvar sulgrevad--client nil "The client of the session, or nil.")
(defvar sulgrevad--line nil "The line to the host.")
(defvar sulgrevad--buffers nil "The buffers of open files.")
(defvar sulgrevad--refused nil "What the kill ring got last that had gone back.")
(defvar sulgrevad--taking nil "The buffer that is being changed to what the client shows.")

(defvar-local sulgrevad--tag nil "The tag of the buffer's file.")
(defvar-local sulgrevad--path nil
  "The file's name in the session, which is its path or the end of it.
It stays when the session is over.")
(defvar-local sulgrevad--self nil
  "The buffer itself.
A clone of it has its variables, and is no buffer of the file.")
(defvar-local sulgrevad--tick nil "The buffer's tick after the last change that the client knows.")
(defvar-local sulgrevad--has-drifted nil
  "Whether the client may not know all changes of the buffer.
Where it is but a text that has no room yet: its place, and how long it
is.")
(defvar-local sulgrevad--host-changes nil "The step of undo for edits by the host, as of `prepare-change-group'.")
(defvar-local sulgrevad--undo-given nil "The list for undo as it was when the client had each edit of the buffer.")
(defvar-local sulgrevad--undo-taken nil "The list for undo as it was when each of them had acted, too.")
(defvar-local sulgrevad--cut nil
  "Where a step of the host's has taken text out last.
nil where that was not outside of what the buffer is narrowed to.")
;; They outlive a change of the major mode.
(dolist (name '(sulgrevad--tag sulgrevad--path sulgrevad--self sulgrevad--tick sulgrevad--has-drifted sulgrevad--host-changes
                sulgrevad--undo-given sulgrevad--undo-taken sulgrevad--cut sulgrevad-mode))
  (put name 'permanent-local t))

(defconst sulgrevad--hooks
  '((before-change-functions sulgrevad--before-change 100) (after-change-functions sulgrevad--after-change -100)
    (write-contents-functions sulgrevad--write-contents) (after-set-visited-file-name-hook sulgrevad--at-visit)
    (kill-buffer-query-functions sulgrevad--may-kill) (kill-buffer-hook sulgrevad--at-kill))
  "What is called in the buffer of an open file, by which hooks, how late.
Functions of others on these hooks may change the buffer, too: of that
the first learns after them, the second before them.")
(dolist (hook sulgrevad--hooks)
  (put (cadr hook) 'permanent-local-hook t))

(cl-defstruct (sulgrevad-file (:type list) (:copier nil))
  "How a file is, as `sulgrevad-client-file' has it."
  is-known is-open is-locked is-unsaved has-edits len dot-start dot-end)

(defun sulgrevad--file (tag)
  "How the file TAG is."
  (sulgrevad-client-file sulgrevad--client tag))

(defun sulgrevad--ask (kind &optional tag start end)
  "Ask the client for an event of KIND, behind all that was done.
It may have the file TAG, and the places START and END."
  (sulgrevad-client-ask sulgrevad--client kind (or tag 0) (or start 0) (or end 0)))

;;; Texts

(defun sulgrevad--text (&optional start end)
  "The buffer's text from the place START to END, or all of it."
  (save-restriction
    (widen)
    (buffer-substring-no-properties (1+ (or start 0)) (1+ (or end (buffer-size))))))

(defun sulgrevad--shown (tag &optional start end)
  "The shown text of the file TAG from the place START to END.
A sign that can't be changed stands for each rune that is not loaded."
  (let ((start (or start 0)) (end (or end (sulgrevad-file-len (sulgrevad--file tag)))))
    (mapconcat (lambda (piece)
                 (if (stringp piece) piece
                   (propertize (make-string piece sulgrevad--gap-sign) 'sulgrevad-gap t 'read-only t)))
               (sulgrevad-client-pieces sulgrevad--client tag start (- end start)) "")))

(defun sulgrevad--same-front (one other)
  "How many characters at the front of ONE and OTHER are the same."
  (let ((found (compare-strings one nil nil other nil nil)))
    (if (eq found t) (length one) (1- (abs found)))))

(defun sulgrevad--difference (mine theirs)
  "Where the texts MINE and THEIRS differ.
nil, or a list: where that begins, and where it ends in each."
  (unless (string= mine theirs)
    (let* ((front (sulgrevad--same-front mine theirs))
           (back (sulgrevad--same-front (reverse (substring mine front)) (reverse (substring theirs front)))))
      (list front (- (length mine) back) (- (length theirs) back)))))

(defun sulgrevad--kill-text (text)
  "Have the kill ring hold TEXT, though `kill-new' may fail for others."
  (ignore-errors (kill-new text))
  (unless (equal (car kill-ring) text)
    (push text kill-ring)
    (setq kill-ring-yank-pointer kill-ring)))

(defun sulgrevad--kill-refused (text)
  "Have the kill ring hold TEXT, which was put in and taken back.
It stands there behind what was so before: keys that are pressed in a
full file are one entry.  What was yanked is there already."
  (unless (or (string-empty-p text) (and (eq this-command 'yank) (member text kill-ring)))
    (when (and kill-ring (eq (car kill-ring) sulgrevad--refused)) (setq text (concat (pop kill-ring) text)))
    (sulgrevad--kill-text text)
    (setq sulgrevad--refused (car kill-ring))))

;;; Buffers

(defun sulgrevad--buffer-of (tag)
  "The buffer of the file TAG, or nil."
  (cl-find tag (cl-remove-if-not #'buffer-live-p sulgrevad--buffers)
           :key (lambda (buffer) (buffer-local-value 'sulgrevad--tag buffer))))

(defun sulgrevad--each (function)
  "Call FUNCTION in each buffer of an open file.
Then signal the first error of it."
  (setq sulgrevad--buffers (cl-remove-if-not #'buffer-live-p sulgrevad--buffers))
  (let (first)
    (dolist (buffer sulgrevad--buffers)
      (when (buffer-live-p buffer)      ; a hook of another may have killed it
        (condition-case why (with-current-buffer buffer (when sulgrevad--tag (funcall function)))
          (error (setq first (or first why))))))
    (when first (signal (car first) (cdr first)))))

(defun sulgrevad--is-ours ()
  "Whether the buffer is that of a file of the session."
  (and sulgrevad--client sulgrevad--tag (eq sulgrevad--self (current-buffer))))

(defun sulgrevad--hook-up ()
  "Have the hooks of the buffer follow each edit."
  (dolist (hook sulgrevad--hooks) (add-hook (car hook) (cadr hook) (caddr hook) t)))

(defun sulgrevad--waits ()
  "Whether the buffer has edits that may stand nowhere else."
  (when (sulgrevad--is-ours) (sulgrevad--check-tick))
  (and (eq sulgrevad--self (current-buffer))
       (if sulgrevad--tag sulgrevad--has-drifted (and (null buffer-file-name) (buffer-modified-p)))))

;;; Edits

(defun sulgrevad--has-sign (start end)
  "Whether a sign stands between the places START and END of the buffer."
  (save-restriction
    (widen)
    (text-property-any (1+ start) (1+ end) 'sulgrevad-gap t)))

(defun sulgrevad--give (start end old-end)
  "Have the client replace its runes from START to OLD-END.
The buffer's characters from START to END come in their place.  Return why
that can't be, or nil.  It may signal `sulgrevad-no-memory'."
  (if (sulgrevad--has-sign start end) "what is not loaded can't be put in"
    (condition-case nil (sulgrevad-client-replace sulgrevad--client sulgrevad--tag start old-end (sulgrevad--text start end))
      (wrong-type-argument "the buffer has what is no Unicode text"))))

(defun sulgrevad--check-tick ()
  "Note a change that `after-change-functions' has not reported.
Emacs takes all hooks off where one of another fails."
  (unless (and (eql sulgrevad--tick (buffer-chars-modified-tick)) (memq #'sulgrevad--before-change before-change-functions))
    (setq sulgrevad--has-drifted t)))

(defun sulgrevad--check-length ()
  "Note what is encoded in the buffer: it comes without a hook or a tick."
  (unless (sulgrevad--is-as-long (or (cdr-safe sulgrevad--has-drifted) 0)) (setq sulgrevad--has-drifted t)))

(defun sulgrevad--before-change (&rest _)
  "Note that the buffer is about to change."
  (sulgrevad--check-tick)
  (unless (eq sulgrevad--taking (current-buffer)) (sulgrevad--close-step)))

(defun sulgrevad--after-change (start end old)
  "Give the client the text from START to END, which replaced OLD characters.
It signals no error and no quit, since Emacs would not call it again."
  (when (sulgrevad--is-ours)
    (let ((inhibit-quit t) (is-known (not sulgrevad--has-drifted)))
      (unless (eq sulgrevad--taking (current-buffer))
        (setq sulgrevad--has-drifted t)
        (condition-case nil
            (when (and is-known (sulgrevad--is-as-long (- end start old)))
              (setq sulgrevad--has-drifted (sulgrevad--give (1- start) (1- end) (+ (1- start) old))))
          (error nil))
        (sulgrevad-line-schedule sulgrevad--line sulgrevad-most-unsent)) ; a timer or a process may have made it, and no command
      (setq sulgrevad--tick (buffer-chars-modified-tick)))))

(defun sulgrevad--is-as-long (more)
  "Whether the buffer has MORE characters than the shown text.
Another change, which no hook has reported, seldom leaves that as it is."
  (= (buffer-size) (+ (sulgrevad-file-len (sulgrevad--file sulgrevad--tag)) more)))

(defun sulgrevad--hand-over ()
  "Give the client what no hook has reported.
It may signal `sulgrevad-no-memory': then it is to be called again."
  (unless enable-multibyte-characters (set-buffer-multibyte t)) ; places are those of characters, not of bytes
  (unless (or (not (sulgrevad--waits))
              (and (consp sulgrevad--has-drifted) (sulgrevad-file-has-edits (sulgrevad--file sulgrevad--tag)))) ; they make room
    (setq sulgrevad--has-drifted t)
    (let ((waits nil))
      (pcase (sulgrevad--difference (sulgrevad--text) (sulgrevad--shown sulgrevad--tag))
        (`(,start ,end ,old-end)
         (when-let ((why (sulgrevad--give start end old-end)))
           ;; What goes takes up room until it has gone.  So a text that has room only in the place of another waits here for that.
           (if (and (string-prefix-p "SAM_REFUSAL_TOO_LONG" why) (<= (buffer-size) sulgrevad-most-runes)
                    (null (sulgrevad--give start start old-end)))
               (setq waits (cons start (- end start)))
             (sulgrevad--kill-refused (sulgrevad--text start end))
             (message "Sulgrevad: %s; the kill ring has what was put in" why)
             (sulgrevad--put-back)))))
      (sulgrevad--hook-up)
      (setq sulgrevad--has-drifted waits
            sulgrevad--tick (buffer-chars-modified-tick)))))

;;; What the host changes

(defun sulgrevad--put (start end text)
  "Have TEXT replace the buffer's from START to END, and nothing in half.
Signal an error where a function of another package, which Emacs calls
before that, has had something else go."
  (let ((inhibit-quit t) (goes (sulgrevad--text start end)))
    (save-restriction
      (widen)
      (save-excursion
        (goto-char (1+ start))
        (let ((went (delete-and-extract-region (point) (1+ end))))
          (unless (string= went goes)
            (let ((inhibit-modification-hooks t)) (insert went))
            (error "Another function has changed what goes")))
        (insert text)))))

(defun sulgrevad--put-outside (at text)
  "Put TEXT in AT a border of what the buffer is narrowed to, and outside."
  (let ((start (copy-marker (point-min) (< 1 (point-min)))) (end (copy-marker (point-max) (< (buffer-size) (point-max)))))
    (sulgrevad--put at at text)
    (narrow-to-region (min start end) end)))

(defun sulgrevad--put-over (start text)
  "Have TEXT, which is loaded, replace what stands for it from START on.
All markers stay: it is put in behind that, and the two change places."
  (let* ((buffer-undo-list t) (from (1+ start)) (to (+ from (length text))) (end (+ to (length text))))
    (save-restriction
      (widen)
      (save-excursion
        (goto-char to)
        (insert text)
        (transpose-regions from to to end t)
        (delete-region to end)))))

(defun sulgrevad--put-back ()
  "Have the buffer be the shown text, whoever else's hooks fail."
  (let ((inhibit-read-only t) (sulgrevad--taking (current-buffer)))
    (dolist (inhibit-modification-hooks '(nil t))
      (pcase (sulgrevad--difference (sulgrevad--text) (sulgrevad--shown sulgrevad--tag))
        (`(,start ,end ,to) (ignore-errors (sulgrevad--put start end (sulgrevad--shown sulgrevad--tag start to)))))))
  (sulgrevad--join-steps sulgrevad--undo-given))

;; The host changes a text by command lines alone.  What one of them does is one step of undo, whenever it comes.

(defun sulgrevad--open-step ()
  "Begin a step of undo for edits by the host, unless there is one."
  (unless sulgrevad--host-changes
    (undo-boundary)
    (setq sulgrevad--host-changes (prepare-change-group))))

(defun sulgrevad--close-step ()
  "End the step of undo for edits by the host."
  (when sulgrevad--host-changes
    (undo-amalgamate-change-group sulgrevad--host-changes)
    (undo-boundary)
    (setq sulgrevad--host-changes nil sulgrevad--cut nil)))

(defun sulgrevad--join-steps (before)
  "Have all since the list for undo was BEFORE be one step of undo.
Something was put in since, and went back.  By itself undo would put it in
once more, find no room for it either, and never come to what was before."
  (sulgrevad--close-step)
  (let ((at (and (consp buffer-undo-list) buffer-undo-list)))
    (while (and (cdr at) (not (memq before (list at (cdr at)))))
      (if (or (cadr at) (eq before (cddr at))) (setq at (cdr at)) ; the boundary in front of the step stays
        (setcdr at (cddr at))))))

(defun sulgrevad--take (splices)
  "Make the SPLICES of one step in the buffer of their file.
Functions of others may change it meanwhile: then places move, and it
drifts."
  (when-let ((buffer (and splices (sulgrevad--buffer-of (cadr (car splices))))))
    (with-current-buffer buffer
      (let* ((inhibit-read-only t) (sulgrevad--taking buffer) (waits sulgrevad--has-drifted) (start (car-safe waits))
             (mark (lambda (kind place count)
                     (let ((is-behind (and start (if (eq kind 'came) (< start place) (<= start place)))))
                       (list (copy-marker (+ 1 place (if is-behind (cdr waits) 0))) kind place count))))
             (marked (cl-loop for (kind _ place count) in splices
                              for front = (and start (not (eq kind 'came)) (< place start (+ place count)) (- start place))
                              when front collect (funcall mark kind start (- count front)) ; what waits stays between the two
                              collect (funcall mark kind place (or front count)))))
        (condition-case nil
            (pcase-dolist (`(,marker . ,splice) marked)
              (apply #'sulgrevad--take-one (1- marker) splice)
              (set-marker marker nil))
          (error (when (sulgrevad--is-ours) ; a hook of another has failed
                   (when waits
                     (sulgrevad--kill-text (sulgrevad--text))
                     (message "Sulgrevad: another function has failed; the kill ring has the text of %s" (buffer-name)))
                   (sulgrevad--put-back)))))
      (when (sulgrevad--is-ours)
        (sulgrevad--check-tick)
        (if (consp sulgrevad--has-drifted) (setq sulgrevad--has-drifted t) ; it may stand elsewhere now
          (sulgrevad--check-length))))))

(defun sulgrevad--take-one (at kind place count)
  "Make a splice of KIND in the buffer: AT is its place there.
At the client it is PLACE; it is of COUNT runes."
  (let ((end (+ at count)))
    (pcase kind
      ('came (sulgrevad--open-step)
             (let ((text (sulgrevad--shown sulgrevad--tag place (+ place count))))
               (if (eql at sulgrevad--cut) (sulgrevad--put-outside at text) (sulgrevad--put at at text))))
      ('went (sulgrevad--open-step)
             (let ((has-sign (sulgrevad--has-sign at end)))
               (setq sulgrevad--cut (and (< at end) (or (< end (point-min)) (<= (1- (point-max)) at)) at))
               (sulgrevad--put at end "")
               (when has-sign (setq buffer-undo-list nil sulgrevad--host-changes nil)))) ; undo would put signs back
      ('filled (sulgrevad--put-over at (sulgrevad--shown sulgrevad--tag place (+ place count))))
      ('emptied (sulgrevad--let-go))))) ; its file is closed

(defun sulgrevad--is-whole (tag)
  "Whether no character of the file TAG is still to be loaded."
  (null (sulgrevad-client-first-gap sulgrevad--client tag)))

;;; How a buffer is

(defun sulgrevad--let-go ()
  "Have the buffer stay readable, and be of no file any more.
It counts as modified where its text stands nowhere else, and once
something is typed: then it asks before it is killed, and Emacs at its
end."
  (unless buffer-file-name (restore-buffer-modified-p (sulgrevad--waits)))
  (dolist (hook sulgrevad--hooks)
    (unless (memq (car hook) '(kill-buffer-query-functions kill-buffer-hook)) (remove-hook (car hook) (cadr hook) t)))
  (kill-local-variable 'revert-buffer-function)
  (setq buffer-read-only t sulgrevad--tag nil)
  (with-demoted-errors "Sulgrevad: %S" (sulgrevad-mode -1))) ; a hook of another may fail

(defun sulgrevad--is-left ()
  "Whether the buffer is as it was let go, and its text stands elsewhere, too."
  (not (or (not (eq sulgrevad--self (current-buffer))) sulgrevad--tag (sulgrevad--waits)
           buffer-file-name)))          ; else it would be written there

(defun sulgrevad--update (is-idle)
  "Have the buffer show how its file is, and what it is called.
IS-IDLE says that no command line is under way."
  (let ((file (sulgrevad--file sulgrevad--tag)))
    (if (not (sulgrevad-file-is-open file)) (sulgrevad--let-go)
      (let ((name (sulgrevad-client-name sulgrevad--client sulgrevad--tag)))
        (unless (member name (list "" sulgrevad--path))
          (setq sulgrevad--path name)
          (rename-buffer (sulgrevad--base name) t)))
      (setq list-buffers-directory      ; another major mode drops that
            (unless (find-file-name-handler sulgrevad--path 'file-remote-p) sulgrevad--path)) ; which C-x C-b would have look at it
      (unless (or sulgrevad--has-drifted (eq (buffer-modified-p) (sulgrevad-file-is-unsaved file)))
        (restore-buffer-modified-p (sulgrevad-file-is-unsaved file)))
      (when (and is-idle (sulgrevad--is-whole sulgrevad--tag)) (sulgrevad--close-step))
      (unless sulgrevad--has-drifted
        (setq sulgrevad--undo-given (and (consp buffer-undo-list) (cl-member nil buffer-undo-list :test-not #'eq)))
        (unless (sulgrevad-file-has-edits file) (setq sulgrevad--undo-taken sulgrevad--undo-given))))))

(defun sulgrevad--base (name)
  "What a buffer is called whose file has this NAME.
The name is the host's.  So none of Emacs' functions for file names may
look at it, which have handlers: TRAMP takes \"/ssh:box:/x\" for its own."
  (or (car (last (split-string name "/" t))) "unnamed"))

(provide 'sulgrevad-buffer)
;;; sulgrevad-buffer.el ends here
