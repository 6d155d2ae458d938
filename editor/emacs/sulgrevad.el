;;; sulgrevad.el --- edit files that lie behind samhost  -*- lexical-binding: t -*-

;; Package-Requires: ((emacs "28.1"))

;;; Commentary:

;; Build the module by editor/emacs/build (which has a word on licences), and begin Emacs with -L editor/emacs -l sulgrevad.  M-x
;; sulgrevad-start begins a session.  docs/howto/EMACS.md says what the keys and commands do.
;;
;; Each file stands on the next: sulgrevad-copies.el says what becomes of text that the host may not have, sulgrevad-session.el what goes
;; on by itself, sulgrevad-buffer.el how a buffer and the client's text stay the same, sulgrevad-line.el how the line goes over processes.

;;; Code:

(require 'sulgrevad-copies)

(defconst sulgrevad--is-folder 5 "The code of a path that is a folder's.")
(defconst sulgrevad--replacing '((11 . "another program changed it") (12 . "it is there already") (24 . "it can't be read"))
  "Codes of writes that would have replaced what stands in the file.")

(defvar sulgrevad--history nil "Commands that have run hosts.")
(defvar sulgrevad--paths nil "Paths that were read.")

(defvar sulgrevad-mode-map
  (let ((map (make-sparse-keymap)))
    (define-key map [remap find-file] #'sulgrevad-find-file)
    (define-key map [remap write-file] #'sulgrevad-write-file)
    (define-key map (kbd "C-c ,") #'sulgrevad-command)
    (define-key map (kbd "C-x #") #'sulgrevad-close)
    map)
  "The keys of a buffer whose file lies behind a host.")

(define-minor-mode sulgrevad-mode
  "The buffer's file lies behind a host."
  :lighter (" Sam" (:eval (sulgrevad--in-words "[%s]"))))

;;; Sessions

(defun sulgrevad--begin (command words takes-over)
  "Begin a session with a host of COMMAND and WORDS after it.
WORDS is a function of the session's name.  TAKES-OVER says that it was
another terminal's."
  (when sulgrevad--client (user-error "There is a session already"))
  (setq sulgrevad--buffers nil sulgrevad--told nil sulgrevad--complaints nil
        sulgrevad--hidden nil sulgrevad--answers nil sulgrevad--wishes nil sulgrevad--ended-with nil
        sulgrevad--copies nil sulgrevad--keeps-at 0
        sulgrevad--is-named nil sulgrevad--is-taken nil sulgrevad--folder default-directory)
  (let (line)
    (setq line (sulgrevad-line-make
                command (lambda (event what) (when (eq line sulgrevad--line) (sulgrevad--hear event what))) takes-over)
          sulgrevad--line line
          sulgrevad--client (sulgrevad-line-client line))
    (dolist (hook sulgrevad--global-hooks) (add-hook (car hook) (cadr hook)))
    (advice-add 'kill-emacs :before #'sulgrevad--leave)
    (condition-case why
        (progn (sulgrevad-line-connect line (funcall words (sulgrevad-line-name line)) t)
               (sulgrevad--ask 'offer-version) ; it brings the names of the session's files
               (unless (sulgrevad--wait #'sulgrevad--is-idle t)
                 (user-error "The host is gone: %s" (string-join (reverse sulgrevad--told) "; "))))
      ((error quit) (sulgrevad--lose "the session did not begin")
                    (signal (car why) (cdr why))))))

(defun sulgrevad--show-first ()
  "Show the first file of the session, or read the path of one."
  (let ((first (car (sulgrevad--names))))
    (cond (first (switch-to-buffer (sulgrevad--show (cdr first))))
          ((not noninteractive) (call-interactively #'sulgrevad-find-file)))))

(defun sulgrevad--read-command ()
  "Read the command for samhost."
  (let ((usual (or (car sulgrevad--history) sulgrevad-command)))
    (read-string (format-prompt "Command that runs samhost" usual) nil 'sulgrevad--history usual)))

;;;###autoload
(defun sulgrevad-start (command &rest files)
  "Begin a session of FILES, which stays when its line breaks.
COMMAND runs samhost: a list of words, or a shell's line as
\"ssh box samhost\".  FILES become words after it, so a blank is to be
quoted for ssh.  Show the first of them, or ask for one."
  (interactive (list (sulgrevad--read-command)))
  (sulgrevad--begin command
                    (lambda (name)
                      (append (list "--serve" name)
                              (and sulgrevad-stay-hours (list "--stay" (format "%s" sulgrevad-stay-hours)))
                              (list "--") files))
                    nil)
  (sulgrevad--show-first))

;;;###autoload
(defun sulgrevad-take (command &optional name)
  "Go on with a session that another terminal had.
COMMAND runs samhost, as for `sulgrevad-start'.  NAME is the session's;
without it the only one that is there is taken.  Texts come, and which
files were not written; undo doesn't."
  (interactive (list (sulgrevad--read-command)
                     (read-string "Name of the session (the only one): ")))
  (sulgrevad--begin command (lambda (_) (cons "--take" (if (member name '(nil "")) nil (list name)))) t)
  (sulgrevad--show-first))

;;;###autoload
(defun sulgrevad-reconnect ()
  "Try a lost line now.  Here ssh may ask for a password."
  (interactive)
  (unless sulgrevad--client (user-error "There is no session"))
  (when (or (sulgrevad--is-late) (not (sulgrevad-line-is-open sulgrevad--line)))
    (unwind-protect
        (progn (sulgrevad-line-connect-again sulgrevad--line t)
               (message "The line is %s"
                        (if (sulgrevad--wait (lambda () (sulgrevad-line-is-open sulgrevad--line)) t) "back" "still lost")))
      (when (and sulgrevad--line (not (sulgrevad-line-is-open sulgrevad--line))) ; who has given up answers no question of it
        (sulgrevad-line--break sulgrevad--line)))))

(defun sulgrevad-quit ()
  "End the session; ask first where a file was not written."
  (interactive)
  (unless sulgrevad--client (user-error "There is no session"))
  (when (sulgrevad--may-end)
    (let ((buffers sulgrevad--buffers))
      (sulgrevad--leave)
      (dolist (buffer buffers)
        (when (and (buffer-live-p buffer) (with-current-buffer buffer (sulgrevad--is-left))) (kill-buffer buffer))))))

;;; Files

(defun sulgrevad--show (tag)
  "The buffer of the file TAG, which is opened and loaded where it is not.
One that an earlier session left is used again."
  (or (sulgrevad--buffer-of tag)
      (let ((name (sulgrevad-client-name sulgrevad--client tag)))
        (sulgrevad--await-whole tag (sulgrevad--base name))
        (with-current-buffer (or (cl-find-if (lambda (buffer)
                                               (with-current-buffer buffer (and (equal sulgrevad--path name) (sulgrevad--is-left))))
                                             (buffer-list))
                                 (generate-new-buffer (sulgrevad--base name)))
          (let ((inhibit-quit t)) (sulgrevad--fill tag name)) ; what is typed into a half of it would go nowhere
          (goto-char (point-min))
          (current-buffer)))))

(defun sulgrevad--fill (tag name)
  "Have the buffer become that of the file TAG, which has this NAME and is loaded."
  (setq sulgrevad--tag tag
        sulgrevad--path name
        sulgrevad--self (current-buffer))
  (let ((buffer-undo-list t)) (sulgrevad--put-back))
  (setq buffer-read-only nil
        buffer-undo-list nil
        sulgrevad--host-changes nil
        sulgrevad--has-drifted nil
        sulgrevad--tick (buffer-chars-modified-tick))
  (cl-pushnew (current-buffer) sulgrevad--buffers)
  (sulgrevad--hook-up)
  (sulgrevad--set-mode name)
  (setq buffer-offer-save 'always)      ; so C-x s asks
  (setq-local revert-buffer-function #'sulgrevad--revert)
  (sulgrevad-mode)
  (sulgrevad--pump)
  (sulgrevad--offer-left))

(defun sulgrevad--await-whole (tag name)
  "Load the file TAG of this NAME, and say how far that is.  \\[keyboard-quit] stops it."
  (unless (sulgrevad-file-is-open (sulgrevad--file tag)) (sulgrevad--ask 'open tag))
  (sulgrevad-client-see sulgrevad--client tag)
  (let* ((reporter nil)
         (tell (lambda ()
                 (unless reporter (setq reporter (make-progress-reporter (format "Loading %s..." name) 0 100)))
                 (let ((len (if sulgrevad--client (sulgrevad-file-len (sulgrevad--file tag)) 0)))
                   (progress-reporter-force-update
                    reporter (if (= 0 len) 0 (/ (* 100 (or (sulgrevad-client-first-gap sulgrevad--client tag) len)) len))
                    nil (sulgrevad--in-words "%s; C-g stops"))))))
    (unless (sulgrevad--wait (lambda () (and (sulgrevad-file-is-open (sulgrevad--file tag)) (sulgrevad--is-answered tag))) t tell)
      (error "%s is not loaded: the host does not answer" name))
    (when reporter (progress-reporter-done reporter))))

(defun sulgrevad--set-mode (name)
  "Choose the major mode for the file NAME.
The mode sees no file of this machine, nor TRAMP's: what has this name is
the host's.  Its hooks run where no file is visited."
  (with-local-quit
    (with-demoted-errors "File mode specification error: %S"
      (delay-mode-hooks
        (let ((buffer-file-name (concat "/dev/null" (replace-regexp-in-string "\\(?:\\`\\|/\\)[./]*/" "/" (concat "/" name))))
              (enable-dir-local-variables nil))
          (if (not (find-file-name-handler buffer-file-name 'file-remote-p)) (set-auto-mode)
            (let ((file-name-handler-alist nil)) (set-auto-mode))))) ; one for archives, say
      (run-mode-hooks))))

(defun sulgrevad--question (kind path &optional tag)
  "Ask the host by a request of KIND about PATH, or the file TAG.
Return its answer."
  (let* ((bytes (decode-coding-string (encode-coding-string path 'utf-8-unix) 'latin-1-unix))
         (task (sulgrevad-client-begin sulgrevad--client kind (or tag 0) bytes)))
    (unless (eq kind 'complete) (sulgrevad--ask 'offer-version))
    (or (sulgrevad--await-answer 'task task) (sulgrevad--refuse))))

(defun sulgrevad--is-named (tag)
  "Whether the host has told the name of the file TAG, and all others."
  (and (sulgrevad-file-is-known (sulgrevad--file tag)) (sulgrevad--is-idle)))

(defun sulgrevad--await-name (tag)
  "Wait until the host has told the name of the file TAG."
  (unless (sulgrevad--wait (lambda () (sulgrevad--is-named tag))) (sulgrevad--refuse)))

(defun sulgrevad--open-path (path)
  "Have the host open PATH.  Return its tag."
  (let* ((answer (sulgrevad--question 'open path)) (tag (sulgrevad-note-tag answer)))
    (cond ((eq 'opened (sulgrevad-note-kind answer))
           (sulgrevad--await-name tag)
           tag)
          ((= sulgrevad--is-folder (sulgrevad-note-code answer)) (user-error "%s is a folder" path))
          (t (user-error "%s is not opened: %s" path (sulgrevad-note-text answer))))))

;;;###autoload
(defun sulgrevad-find-file (path)
  "Show the file at PATH of the session's host, which may be new.
A path is seen from the folder in which samhost runs.  With a prefix
argument, read a file name of this machine."
  (interactive
   (if current-prefix-arg (list nil)
     (sulgrevad--need-host)
     (list (sulgrevad--read-path "Find file at the host: "))))
  (if (null path) (call-interactively #'find-file)
    (sulgrevad--need-host)
    (switch-to-buffer (sulgrevad--show (sulgrevad--open-path (sulgrevad--plain path))))))

(defun sulgrevad-find (name)
  "Show the file NAME of the session."
  (interactive (progn (unless sulgrevad--client (user-error "There is no session"))
                      (list (completing-read "File of the session: " (sulgrevad--names) nil t))))
  (let ((tag (cdr (assoc name (sulgrevad--names)))))
    (unless tag (user-error "The session has no file %s" name))
    (unless (sulgrevad--buffer-of tag) (sulgrevad--need-host))
    (switch-to-buffer (sulgrevad--show tag))))

(defun sulgrevad-close ()
  "Close the buffer's file for good, and kill the buffer.
\"samhost --open --wait\" waits for that."
  (interactive)
  (sulgrevad--settle)
  (when (or (not (sulgrevad-file-is-unsaved (sulgrevad--file sulgrevad--tag)))
            (yes-or-no-p (format "%s was not written; close it all the same? " (buffer-name))))
    (sulgrevad--ask 'close sulgrevad--tag)
    (sulgrevad--let-go)
    (kill-buffer)
    (sulgrevad--pump)))

(defun sulgrevad--show-wished ()
  "Show a file that somebody wishes shown, as samhost --open does.
Where that can't be now, it is tried again."
  (cond ((not (and sulgrevad--wishes sulgrevad--client)))
        ((or (sulgrevad--is-late) (sulgrevad--is-amid) (active-minibuffer-window) (< 0 (length (this-command-keys-vector))))
         (run-with-timer sulgrevad-rest nil #'run-with-idle-timer sulgrevad-rest nil #'sulgrevad--show-wished))
        (t (pcase-let ((`(,tag . ,line) (pop sulgrevad--wishes)))
             (with-local-quit           ; a timer has none
               (unless (sulgrevad-file-is-known (sulgrevad--file tag)) (sulgrevad--ask 'offer-version))
               (when (sulgrevad--wait (lambda () (sulgrevad--is-named tag)))
                 (pop-to-buffer (sulgrevad--show tag))
                 (when (< 0 line)
                   (let ((place (save-restriction (widen) (goto-char (point-min)) (forward-line (1- line)) (point))))
                     (unless (<= (point-min) place (point-max)) (widen))
                     (goto-char place)))))))))

(defun sulgrevad--revert (_ignore-auto noconfirm)
  "Read the buffer's file anew, after a question unless NOCONFIRM.
The host reads it as another file, so undo has the text before."
  (sulgrevad--settle)
  (when (or noconfirm
            (yes-or-no-p (format "Read %s anew at the host%s? " sulgrevad--path (if (buffer-modified-p) ", and drop its changes" ""))))
    (let* ((client sulgrevad--client) (answer (sulgrevad--question 'reload "" sulgrevad--tag)) (anew (sulgrevad-note-number answer)))
      (unless (eq 'anew (sulgrevad-note-kind answer))
        (user-error "%s is not read anew: %s" sulgrevad--path (sulgrevad-note-text answer)))
      (sulgrevad--await-name anew)
      (unwind-protect (sulgrevad--take-anew anew)
        (when (eq client sulgrevad--client) (sulgrevad--ask 'close anew))) ; in another session it is another file
      (message "%s is read anew; undo takes that back" (buffer-name)))))

(defun sulgrevad--take-anew (anew)
  "Have the buffer be what the file ANEW is, and count as written."
  (sulgrevad--await-whole anew (buffer-name))
  (sulgrevad--settle)
  (let ((text (sulgrevad--shown anew)) (tag sulgrevad--tag))
    (let ((inhibit-read-only t)) (sulgrevad--become text))
    (sulgrevad--settle)          ; the edits go first
    (unless (equal (sulgrevad--text) text) (user-error "%s is not read anew: another function has changed it" (buffer-name)))
    (sulgrevad-client-reloaded sulgrevad--client tag anew)
    (sulgrevad--ask 'write tag)
    (sulgrevad--set-mode sulgrevad--path)
    (sulgrevad--wait (lambda () (sulgrevad--is-answered tag)))))

;;; Paths

(defun sulgrevad--plain (path)
  "PATH without what stands before an absolute one, as \"src//etc/motd\"."
  (if (string-match "[^\0]*/\\(/\\)" path) (substring path (match-beginning 1)) path))

(defun sulgrevad--last (path)
  "What stands behind the last slash of PATH."
  (car (last (split-string path "/"))))

(defun sulgrevad--read-path (prompt)
  "Read a path at the host, with completion, after PROMPT."
  (let ((known nil))
    (completing-read prompt
                     (lambda (string predicate action)
                       (sulgrevad--complete string predicate action
                                            (lambda (path)
                                              (cdr (or (assoc path known)
                                                       (car (push (cons path (sulgrevad--names-at path)) known)))))))
                     nil nil
                     (and sulgrevad--path (string-remove-suffix (sulgrevad--last sulgrevad--path) sulgrevad--path))
                     'sulgrevad--paths)))

(defun sulgrevad--complete (string predicate action names-at)
  "Complete the path STRING, with PREDICATE and ACTION as for any table.
NAMES-AT gives the names that complete a path, without their folder."
  (let* ((path (sulgrevad--plain string)) (name (sulgrevad--last path)) (front (string-remove-suffix name string)))
    (pcase action
      ('metadata nil)
      (`(boundaries . ,suffix) `(boundaries ,(length front) . ,(or (string-search "/" suffix) (length suffix))))
      (_ (completion-table-with-context front (funcall names-at path) name predicate action)))))

(defun sulgrevad--names-at (path)
  "The names at the host that complete PATH; those of folders end in a slash."
  (let ((answer (and sulgrevad--client (not (sulgrevad--is-late)) (sulgrevad--question 'complete path))))
    (and answer (split-string (decode-coding-string (sulgrevad-note-path answer) 'utf-8-unix) "\n" t))))

;;; Command lines

(defun sulgrevad-command (line)
  "Run a command LINE of sam on the buffer and its region.
Return what it prints, which the buffer *sam* has, too."
  (interactive "sCommand: ")
  (sulgrevad--settle)
  (let* ((tag sulgrevad--tag) (tick (buffer-chars-modified-tick))
         (printed (sulgrevad--await-answer 'line (sulgrevad--run line) t tag)))
    (when (eq printed 'refused) (user-error "The command file has no room for the line"))
    (when printed (sulgrevad--show-answer line printed tag tick))
    (or printed "")))

(defun sulgrevad--show-answer (line printed tag tick)
  "Show what the command LINE PRINTED, and go to the dot of the file TAG.
TICK is how often its buffer had changed when the line was asked for."
  (with-current-buffer (get-buffer-create "*sam*")
    (goto-char (point-max))
    (insert line "\n" printed))
  (when sulgrevad--tag
    (let* ((file (sulgrevad--file tag)) (start (sulgrevad-file-dot-start file)) (end (sulgrevad-file-dot-end file))
           (is-changed (not (eql tick (buffer-chars-modified-tick)))))
      (when (or (<= (point-min) (1+ start) (1+ end) (point-max))
                (unless (or is-changed (not widen-automatically)) ; as `goto-line'; a line that changes the text leaves point there
                  (widen)
                  t))
        (push-mark (1+ start) t (< start end))
        (goto-char (1+ end)))
      (when is-changed (deactivate-mark)))) ; as after any edit
  (unless (string-empty-p printed) (message "%s" printed)))

(defun sulgrevad--run (line)
  "Have the host run the command LINE on the buffer and its region.
Return the number of its request."
  (sulgrevad--ask 'select sulgrevad--tag
                  (1- (if (use-region-p) (region-beginning) (point))) (1- (if (use-region-p) (region-end) (point))))
  (let ((request (sulgrevad-client-run sulgrevad--client sulgrevad--tag line)))
    (if (stringp request) (user-error "The line can't run: %s" request) request)))

;;; Writing

(defun sulgrevad-save ()
  "Have the host write the buffer's file, and wait until it has.
Where it does not answer, the file is written once it does.  Ask first
where that would replace what another program has written."
  (interactive)
  (unless (sulgrevad--is-ours) (user-error "The buffer is not that of a file of the session"))
  (let* ((tag sulgrevad--tag) (why (sulgrevad--replaced tag)))
    (when (or (null why) (yes-or-no-p (format "%s: %s; replace it? " (buffer-name) why)))
      (setq sulgrevad--has-drifted t)   ; perhaps a change has left no sign
      (sulgrevad--pump)
      (unless (and (sulgrevad--is-ours) (not (sulgrevad--waits)))
        (user-error "%s is not written: the host can't have all of it yet" (buffer-name)))
      (sulgrevad--ask 'write tag)
      (setq sulgrevad--complaints (assq-delete-all tag sulgrevad--complaints))
      (cond ((not (sulgrevad--wait (lambda () (sulgrevad--is-answered tag))))
             (message "The host writes %s once it answers%s" (buffer-name) (sulgrevad--in-words)))
            ((sulgrevad--replaced tag) (sulgrevad-save))))))

(defun sulgrevad--replaced (tag)
  "Why the next write of the file TAG would replace another program's text.
nil where that is not known, or nobody is there who may be asked."
  (pcase (and sulgrevad--client (not noninteractive) (cdr (assq tag sulgrevad--complaints)))
    (`(,note . ,name) (and (equal name (sulgrevad-client-name sulgrevad--client tag)) ; else it was told of another file
                           (cdr (assq (sulgrevad-note-code note) sulgrevad--replacing))))))

(defun sulgrevad--write-contents ()
  "Have the host write the buffer, for `save-buffer'.
What visits a file of this machine Emacs writes itself."
  (sulgrevad--at-visit)                 ; the file's name may have been but set
  (unless buffer-file-name
    (sulgrevad-save)
    t))

(defun sulgrevad--at-visit ()
  "Have the buffer leave the session once it visits a file of this machine.
So it is after `write-file'.  The host keeps its file and the text."
  (when (and buffer-file-name (sulgrevad--is-ours))
    (unless (sulgrevad--is-whole sulgrevad--tag) (sulgrevad--settle)) ; signs are no text
    (setq sulgrevad--self nil)          ; it is Emacs that asks where it is killed
    (sulgrevad--let-go)
    (setq buffer-read-only nil)))

(defun sulgrevad-write-file (path)
  "Have the host write the buffer to PATH, which becomes the file's name."
  (interactive (progn (sulgrevad--settle)
                      (list (sulgrevad--read-path "Write file at the host: "))))
  (let* ((plain (sulgrevad--plain path))
         (path (if (string-suffix-p "/" plain) (concat plain (sulgrevad--base sulgrevad--path)) plain))
         (printed (if (string-match-p "\\`\\'\\|\n\\|\\`[ \t]\\|[ \t]\\'" path) "the name is wrong" ; the host drops blanks at its ends
                    (save-mark-and-excursion (sulgrevad-command (concat "f " path))))))
    (unless (equal (sulgrevad-client-name sulgrevad--client sulgrevad--tag) path)
      (user-error "The file can't be called %s: %s" path (string-trim printed)))
    (sulgrevad--set-mode path)
    (sulgrevad-save)))

(provide 'sulgrevad)
;;; sulgrevad.el ends here
