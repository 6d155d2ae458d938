;;; sulgrevad-copies.el --- text that the host may not have  -*- lexical-binding: t -*-

;;; Commentary:

;; What the host may not have while the line is lost, or when a buffer or the session goes, is kept here, in NAME.sam-here: in the folder in
;; which the session began, or in that for temporary files.  A later session tells of it where it shows the file, and M-x sulgrevad-recover
;; takes it, compares or drops it.  The buffer of a session that is over is used again for the same file, unless it was changed
;; since, or visits a file of this machine.

;;; Code:

(require 'sulgrevad-session)

(declare-function diff-no-select "diff" (old new &optional switches no-async buf))

(defconst sulgrevad-most-names 1000 "How many names are tried for a file that keeps a text here.")
(defconst sulgrevad-most-in-base 50
  "How many characters of a file's name such a name begins with.
Those of four bytes have room, too.")
(defconst sulgrevad-most-leaving 10 "How many seconds at most the end of a session takes.")
(defconst sulgrevad-most-unkept 1 "How many seconds of a lost line pass at least until a text is kept here again.")
(defconst sulgrevad-most-keeping 0.05
  "For which part of the time that is done at most.
A disk may be slow, and keys wait.")
(defconst sulgrevad--gap-words "[%d characters that were not loaded]" "What stands in such a text for characters that it lacks.")

(defvar sulgrevad--folder nil "The folder in which the session began.")
(defvar sulgrevad--copies nil "The files in which texts are kept here while the line is lost.")
(defvar sulgrevad--keeps-at 0 "From when on that is done again, in milliseconds.")

;;; Keeping

(cl-defstruct (sulgrevad-copy (:type list) (:copier nil))
  "A file of ours that has the text of the file TAG, which had this NAME."
  tag name path mark text)

(defun sulgrevad--mark (path)
  "The inode, the time and the size of the file at PATH, or nil.
One that comes in its place has others."
  (when-let ((about (file-attributes path)))
    (list (file-attribute-inode-number about) (file-attribute-modification-time about) (file-attribute-size about))))

(defun sulgrevad--is-there (copy)
  "Whether COPY is as it was made, and nobody has put another in its place."
  (and copy (equal (sulgrevad-copy-mark copy) (sulgrevad--mark (sulgrevad-copy-path copy)))))

(defun sulgrevad--write-new (path text)
  "Write TEXT to a file at PATH that is not there, for its owner alone.
Return `written'; `there' where another is there; nil where it can't be."
  (let ((coding-system-for-write 'utf-8-emacs-unix) (write-region-inhibit-fsync nil) (file-name-handler-alist nil)
        (create-lockfiles nil))
    (condition-case nil
        (if (file-exists-p path) 'there ; one that a buffer visits, and that has changed since, Emacs asks about amid the user's keys
          (with-file-modes #o600 (write-region text nil path nil 'silent nil 'excl) 'written))
      (file-already-exists 'there)
      (error (ignore-errors (delete-file path))))))

(defun sulgrevad--kept-base (name)
  "How the names of files begin in which the text of the file NAME is kept."
  (let ((last (remq 0 (append (sulgrevad--base name) nil)))) ; no name of a file has a NUL
    (concat (or (seq-take last sulgrevad-most-in-base) "unnamed") ".sam-here")))

(defun sulgrevad--kept-folders (base)
  "The folders for such files, the first one first.
What begins with BASE there may have no handler of Emacs', as \"/\" and
\"ssh:box:x\" would have."
  (cl-loop for folder in (mapcar #'file-name-as-directory (list sulgrevad--folder temporary-file-directory))
           unless (find-file-name-handler (concat folder base) 'delete-file) collect (expand-file-name folder)))

(defun sulgrevad--keep-new (name text)
  "Write TEXT to a new file NAME.sam-here.  Return its path, or nil."
  (let ((base (sulgrevad--kept-base name)))
    (cl-loop for folder in (sulgrevad--kept-folders base)
             thereis (cl-loop for number from 1 to sulgrevad-most-names
                              for path = (concat folder base (and (< 1 number) (format ".%d" number)))
                              for made = (sulgrevad--write-new path text)
                              while made
                              when (eq made 'written) return path))))

(defun sulgrevad--keep (name text tag)
  "Write TEXT to a file of this machine, NAME.sam-here.  Return its path, or nil.
It is new, but for one in which the text of the file TAG was kept before:
a new one takes its place, unless the file had another name then."
  (let* ((inhibit-quit t) (before (assq tag sulgrevad--copies)) (path (sulgrevad--keep-new name text)))
    (when (and before path)             ; the old one stays until the new one is whole
      (setq sulgrevad--copies (delq before sulgrevad--copies))
      (when (sulgrevad--is-there before)
        (let ((old (sulgrevad-copy-path before)))
          (ignore-errors
            (if (not (equal name (sulgrevad-copy-name before))) (delete-file old)
              (rename-file path old t)
              (setq path old))))))
    path))

(defun sulgrevad--text-of (buffer tag)
  "The text of BUFFER, or the shown one of the file TAG where it has none.
It has words for what isn't loaded."
  (let ((text (if buffer (with-current-buffer buffer (save-restriction (widen) (buffer-string))) (sulgrevad--shown tag)))
        (at 0) (pieces nil))
    (while (< at (length text))
      (let ((end (next-single-property-change at 'sulgrevad-gap text (length text))))
        (push (if (get-text-property at 'sulgrevad-gap text) (format sulgrevad--gap-words (- end at))
                (substring-no-properties text at end))
              pieces)
        (setq at end)))
    (apply #'concat (nreverse pieces))))

(defun sulgrevad--keep-text (name tag)
  "Keep here the text of the file NAME, which has the TAG.
Without a tag it is that of the buffer.  Return what to say of it."
  (let* ((buffer (if tag (sulgrevad--buffer-of tag) (current-buffer))) (text (sulgrevad--text-of buffer tag))
         (path (sulgrevad--keep name text tag)))
    (unless path (sulgrevad--kill-text text))
    (when buffer (with-current-buffer buffer (setq sulgrevad--has-drifted (null path))))
    (format (if path "the text of %s is here in %s" "no file can be written here; the kill ring has the text of %s") name path)))

(defun sulgrevad--may-lack (tag)
  "Whether a text of the file TAG stands here alone, unless the host has all.
Of a file that nobody has opened here there is none."
  (let ((buffer (sulgrevad--buffer-of tag)) (file (sulgrevad--file tag)))
    (or (and (sulgrevad-file-is-open file) (sulgrevad-file-is-unsaved file))
        (and buffer (with-current-buffer buffer (sulgrevad--waits))))))

(defun sulgrevad--keep-all ()
  "Keep here each text that the host may not have.
Return what to say of them."
  (if (and (sulgrevad--host-has-all) (sulgrevad--is-handed-over)) (sulgrevad--drop-copies)
    (cl-loop for (name . tag) in (sulgrevad--names)
             when (sulgrevad--may-lack tag) collect (sulgrevad--keep-text name tag))))

(defun sulgrevad--keep-modified ()
  "Keep here each modified buffer, where the client can't be asked.
So it is inside of a call of it that a signal broke off, or without
memory."
  (cl-loop for buffer in sulgrevad--buffers
           when (and (buffer-live-p buffer) (buffer-modified-p buffer))
           collect (with-current-buffer buffer (sulgrevad--keep-text sulgrevad--path sulgrevad--tag))))

(defun sulgrevad--drop-copies ()
  "Remove the texts that are kept here: the host has all."
  (dolist (copy sulgrevad--copies)
    (when (sulgrevad--is-there copy) (ignore-errors (delete-file (sulgrevad-copy-path copy)))))
  (setq sulgrevad--copies nil))

(defun sulgrevad--renew (name tag)
  "Have a copy of the text of the file NAME, which has the TAG, where it may lack."
  (let ((copy (assq tag sulgrevad--copies)) (text (and (sulgrevad--may-lack tag) (sulgrevad--text-of (sulgrevad--buffer-of tag) tag))))
    (unless (or (null text)
                (and (equal text (sulgrevad-copy-text copy)) (equal name (sulgrevad-copy-name copy)) (sulgrevad--is-there copy)))
      (when-let ((path (sulgrevad--keep name text tag)))
        (push (make-sulgrevad-copy :tag tag :name name :path path :mark (sulgrevad--mark path) :text text) sulgrevad--copies)))))

(defun sulgrevad--keep-meanwhile ()
  "While the line is lost keep here what the host may not have.
So it is while a prompt of the user's holds back what edits wait for.
Where Emacs is killed then it is not lost.  It goes once the host has
all."
  (let ((inhibit-quit t) (has-all (and (sulgrevad-state-has-all (sulgrevad--state)) (sulgrevad--is-handed-over)))
        (begun (sulgrevad-line--now)))
    (cond ((and has-all (sulgrevad-line-is-open sulgrevad--line)) (sulgrevad--drop-copies))
          ((and (not has-all) (or (sulgrevad--is-late) (sulgrevad-line-is-held sulgrevad--line)) (<= sulgrevad--keeps-at begun))
           (pcase-dolist (`(,name . ,tag) (sulgrevad--names))
             (with-demoted-errors "Sulgrevad: %S" (sulgrevad--renew name tag))) ; one that can't be keeps back no other
           (let ((end (sulgrevad-line--now)))
             (setq sulgrevad--keeps-at (+ end (max (* 1000 sulgrevad-most-unkept) (/ (- end begun) sulgrevad-most-keeping)))))))))

(defun sulgrevad--host-has-all ()
  "Whether the host has all that was done, and will keep it.
It doesn't where it ends badly, or refuses us."
  (let ((has-ended-well (eql 0 sulgrevad--ended-with)) (state (sulgrevad--state)))
    (or (and has-ended-well (sulgrevad-state-has-exited state) ; it has answered what came last
             (cl-notany (lambda (file) (sulgrevad-file-has-edits (sulgrevad--file (cdr file)))) (sulgrevad--names)))
        (and (sulgrevad-state-has-all state)
             (or has-ended-well sulgrevad--is-taken (null (sulgrevad-line-why sulgrevad--line)))))))

(defun sulgrevad--is-handed-over ()
  "Whether the client knows each edit of all buffers."
  (cl-notany (lambda (buffer) (and (buffer-live-p buffer) (with-current-buffer buffer (and sulgrevad--tag (sulgrevad--waits)))))
             sulgrevad--buffers))

;;; What an earlier session has kept here

(defun sulgrevad--left-here (name)
  "The paths of the texts that earlier sessions kept of the file NAME.
The one that was written last is the first."
  (let* ((base (sulgrevad--kept-base name)) (pattern (concat "\\`" (regexp-quote base) "\\(\\.[0-9]+\\)?\\'"))
         (own (mapcar #'sulgrevad-copy-path sulgrevad--copies)))
    (sort (cl-loop for folder in (delete-dups (sulgrevad--kept-folders base))
                   append (cl-loop for (path . about) in (ignore-errors (directory-files-and-attributes folder t pattern))
                                   when (and (null (file-attribute-type about)) (eql (file-attribute-user-id about) (user-uid))
                                             (not (member path own)))
                                   collect path))
          #'file-newer-than-file-p)))

(defun sulgrevad--offer-left ()
  "Say that earlier sessions have kept texts of the buffer's file here."
  (when-let ((left (sulgrevad--left-here sulgrevad--path)))
    (message "Of %s a text was kept here: %s; M-x sulgrevad-recover takes it, compares or drops it"
             (buffer-name)
             (mapconcat (lambda (path)
                          (format-time-string (concat (string-replace "%" "%%" path) ", of %F %T")
                                              (file-attribute-modification-time (file-attributes path))))
                        left "; "))))

(defun sulgrevad-recover (path)
  "Take the text at PATH for the buffer, compare the two, or drop it.
It is one that an earlier session has kept here of the buffer's file.
When it is taken, undo takes it back, and it stays at PATH."
  (interactive (progn (unless (sulgrevad--is-ours) (user-error "The buffer is not that of a file of the session"))
                      (let ((left (sulgrevad--left-here sulgrevad--path)))
                        (unless left (user-error "No earlier session has kept a text of %s here" (buffer-name)))
                        (list (if (cdr left) (completing-read "Text: " left nil t nil nil (car left)) (car left))))))
  (pcase (car (read-multiple-choice (format "%s:" path) '((?t "take") (?c "compare") (?d "drop"))))
    (?t (sulgrevad--recover path))
    (?c (require 'diff)
        (pop-to-buffer (diff-no-select (current-buffer) path)))
    (?d (when (yes-or-no-p (format "Drop %s for good? " path)) (delete-file path)))))

(defun sulgrevad--become (text)
  "Have the buffer's text be TEXT.  Change only what differs; undo takes it back."
  (undo-boundary)
  (pcase (sulgrevad--difference (sulgrevad--text) text)
    (`(,start ,end ,to) (sulgrevad--put start end (substring text start to)))))

(defun sulgrevad--recover (path)
  "Have the buffer's text be that at PATH."
  (let ((text (with-temp-buffer
                (let ((coding-system-for-read 'utf-8-emacs-unix) (format-alist nil)) (insert-file-contents path))
                (buffer-string))))
    (when (or (not (string-match-p (string-replace "%d" "[0-9]+" (regexp-quote sulgrevad--gap-words)) text))
              (yes-or-no-p (format "%s lacks characters that were not loaded; take it? " path)))
      (sulgrevad--become text)
      (message "%s has that text; undo takes it back. It stays in %s until M-x sulgrevad-recover drops it" (buffer-name) path))))

;;; Leaving

(defun sulgrevad--may-kill ()
  "Whether the buffer may be killed, whose file stays at the host."
  (when (sulgrevad--is-ours) (sulgrevad--pump))
  (or noninteractive
      (cond ((sulgrevad--waits) (yes-or-no-p (format "Edits of %s stand nowhere else; kill it all the same? " (buffer-name))))
            ((and (sulgrevad--is-ours) (sulgrevad-file-is-unsaved (sulgrevad--file sulgrevad--tag)))
             (yes-or-no-p (format "%s was not written, and the host keeps its text; kill its buffer? " (buffer-name))))
            (t))))

(defun sulgrevad--at-kill ()
  "Keep here the text of a buffer that is killed.
Only where the client may not know all of it."
  (when (sulgrevad--waits)
    (sulgrevad--pump)                   ; who asked nobody
    (when (sulgrevad--waits) ; the buffer may be NAME<2>
      (message "Sulgrevad: %s" (sulgrevad--keep-text (or sulgrevad--path (buffer-name)) sulgrevad--tag)))))

(defun sulgrevad--may-end ()
  "Whether the session may end.
All went to the host and is written, or the user says so."
  (cond ((null sulgrevad--client) t)
        ((progn (sulgrevad--wait (lambda () (and (sulgrevad--is-handed-over) (not (sulgrevad--is-late))))) (null sulgrevad--client))
         nil)                           ; what became of the texts is to be read
        ((not (sulgrevad--is-handed-over)) (yes-or-no-p "Some edits did not get to the host; leave, and keep them here? "))
        ((sulgrevad--is-late) (yes-or-no-p "The host does not answer; leave the session there, and keep here what it may not have? "))
        ((cl-some (lambda (file) (sulgrevad-file-is-unsaved (sulgrevad--file (cdr file)))) (sulgrevad--names))
         (yes-or-no-p "Some files were not written; leave? "))
        (t)))

(defun sulgrevad--leave (&rest _)
  "End the session without a question.
What waits goes to the host, which saves what was not written.  Where it
does not answer the session stays there."
  (when sulgrevad--client
    (when (sulgrevad--wait (lambda () (not (sulgrevad--is-late))))
      (ignore-errors (sulgrevad--ask 'exit)) ; no memory for it
      (sulgrevad--wait (lambda () (null sulgrevad--client)) sulgrevad-most-leaving))
    (sulgrevad--break-off "the host does not answer")))

(defun sulgrevad--break-off (&optional why)
  "Leave the session at the host, because of WHY, or where a signal ends Emacs.
`sulgrevad--leave' has been called where it is `kill-emacs' that ends it."
  (when sulgrevad--client
    (sulgrevad--lose (format "%s; M-x sulgrevad-take goes on with session %s"
                             (or why "Emacs ends") (sulgrevad-line-name sulgrevad--line)))))

(provide 'sulgrevad-copies)
;;; sulgrevad-copies.el ends here
