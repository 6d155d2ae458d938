;;; sulgrevad-line.el --- a client's line to samhost, over processes  -*- lexical-binding: t -*-

;;; Commentary:

;; The library's client says when a connection is made, asked and given up.  Each is a process that carries bytes to the session and
;; back, as "ssh box samhost --attach NAME".  Nothing here waits: a pipe that is full would hold Emacs up, so the module gives it no more
;; than it surely takes.
;;
;; A connection that the user waits for gets a terminal of its own, so that ssh can ask for a password, and Emacs asks the user.  Others
;; have none, so that nothing asks amid his typing: where a password is wanted they fail, and \\[sulgrevad-reconnect] asks.

;;; Code:

(require 'cl-lib)
(require 'subr-x)

(unless (require 'sulgrevad-module nil t)
  (module-load (expand-file-name "../../out/sulgrevad-module.so" (file-name-directory (or load-file-name buffer-file-name)))))

(define-error 'sulgrevad-error "Sulgrevad")
(define-error 'sulgrevad-no-memory "Sulgrevad" 'sulgrevad-error) ; nothing is lost, and the call is to be made again later

(defconst sulgrevad-line-retry 0.1 "Seconds until that for which memory was out is tried again.")
(defconst sulgrevad-line--most-told 4096 "Characters of a line that a program has written to standard error.")
(defconst sulgrevad-line--no-session 196 "The status of a host that does not find the session.")
(defconst sulgrevad-line--lost
  '((194 . "the host knows another version of the link")
    (196 . "the session is not there any more")
    (197 . "another terminal has the session")
    (199 . "the host has begun again, and lacks some of what it said: M-x sulgrevad-take goes on with the texts that it has"))
  "Statuses of the host's refusals after which no connection comes any more.")

(cl-defstruct (sulgrevad-line (:constructor sulgrevad-line--make) (:copier nil))
  "A line to a session that stays."
  command                  ; the words of the host's command, a shell's in front: it seeks a program from the folder, as Emacs doesn't
  receive                  ; a function that is told what comes: see `sulgrevad-line-make'
  client name folder       ; the library's, the session's name, and where the command runs
  process errors tty       ; the newest connection, its standard error, and its terminal where it has one
  (unfed "")               ; what came, and for which there was no memory
  (told "") last-told      ; of standard error: a line that has begun, and the last one
  (asks "")                ; what stands on the terminal
  is-missing               ; whether the user was told that no host finds the session
  is-held                  ; whether the client can't go on for now
  why                      ; why no connection comes any more
  timer)

(cl-defstruct (sulgrevad-state (:type list) (:copier nil))
  "How the client and its line are, as `sulgrevad-client-describe' has it.
The silence is in milliseconds, and 0 where no answer is due.  A line that
is broken is late, too."
  line silence is-known is-broken is-late has-all waiting is-acting is-command-locked has-exited tags)

(defvar sulgrevad-line--read 0 "What the clock has said last, in milliseconds.")
(defvar sulgrevad-line--back 0 "By how many milliseconds it was set back.")

(defun sulgrevad-line--now ()
  "The time in milliseconds, also where the clock is set back.
The module asks for it at each call."
  (let ((now (truncate (* 1000 (float-time)))))
    (setq sulgrevad-line--back (+ sulgrevad-line--back (max 0 (- sulgrevad-line--read now)))
          sulgrevad-line--read now)
    (+ now sulgrevad-line--back)))

(defun sulgrevad-line-state (line)
  "How LINE and its client are."
  (sulgrevad-client-describe (sulgrevad-line-client line)))

(defun sulgrevad-line-make (command receive &optional takes-over)
  "Make a line to a host of COMMAND, a list of words or a shell's line.
RECEIVE is called with what comes: `came' when the client is to go on,
and a second later at most, and returns whether it can; `told' and a line
of a program's standard error; `lost' and why, once no connection comes
any more.
With TAKES-OVER the session was another terminal's."
  (pcase-let ((`(,client . ,id) (sulgrevad-client-make takes-over)))
    (sulgrevad-line--make
     :command (if (listp command) (append '("/bin/sh" "-c" "exec \"$@\"" "sh") command)
                (list "/bin/sh" "-c" (concat command " \"$@\"") "sh"))
     :receive receive :client client :folder (if (file-remote-p default-directory) temporary-file-directory default-directory)
     :name (mapconcat (lambda (byte) (format "%02x" byte)) (seq-take id 8) ""))))

;;; Connections

(defun sulgrevad-line-connect (line words &optional in-front)
  "Have LINE begin another connection, in the place of the one before.
WORDS stand after its command.  With IN-FRONT the user waits for it, so
that its programs may ask something."
  (sulgrevad-line--drop line)
  (setf (sulgrevad-line-unfed line) "")
  (condition-case why
      (progn (sulgrevad-line--run line (append (sulgrevad-line-command line) words) in-front)
             (sulgrevad-client-connected (sulgrevad-line-client line)))
    (error (sulgrevad-line--drop line)
           (when (sulgrevad-line-errors line) (delete-process (sulgrevad-line-errors line))) ; no program ends it
           (sulgrevad-client-not-connected (sulgrevad-line-client line))
           (unless (sulgrevad-state-is-known (sulgrevad-line-state line)) (signal (car why) (cdr why)))))
  (sulgrevad-line-push line))

(defun sulgrevad-line-connect-again (line &optional in-front)
  "Have LINE try another connection to its session now.
IN-FRONT is as for `sulgrevad-line-connect'."
  (sulgrevad-line-connect line (list "--attach" (sulgrevad-line-name line)) in-front))

(defun sulgrevad-line--run (line words in-front)
  "Begin the process of WORDS that carries the bytes of LINE.
With IN-FRONT it gets a terminal."
  (when in-front
    (setf (sulgrevad-line-asks line) ""
          (sulgrevad-line-tty line)
          (make-process :name "sulgrevad-tty" :command nil :connection-type 'pty :noquery t :coding 'utf-8-unix :sentinel #'ignore
                        :filter (lambda (_ text) (setf (sulgrevad-line-asks line) (concat (sulgrevad-line-asks line) text))))
          ;; A process leads a session of its own, so the first terminal that it opens is the one on which its programs ask.  It stays open,
          ;; since Emacs reads nothing more of a terminal that nobody has open.
          words (append (list "/bin/sh" "-c" "exec 9<>\"$0\"; exec \"$@\"" (process-tty-name (sulgrevad-line-tty line))) words)))
  (let ((default-directory (if (file-accessible-directory-p (sulgrevad-line-folder line)) (sulgrevad-line-folder line)
                             temporary-file-directory))
        (process-environment (append (unless in-front '("SSH_ASKPASS_REQUIRE=never")) process-environment))) ; nor in a window
    (setf (sulgrevad-line-errors line)
          (make-pipe-process :name "samhost-errors" :noquery t :coding 'utf-8-unix :sentinel #'ignore
                             :filter (lambda (_ text) (sulgrevad-line--tell line text)))
          (sulgrevad-line-process line)
          (make-process :name "samhost" :command words :coding 'latin-1-unix :connection-type 'pipe :noquery t
                        :stderr (sulgrevad-line-errors line)
                        :filter (lambda (process bytes) (sulgrevad-line--came line process bytes))
                        :sentinel (lambda (process _) (sulgrevad-line--changed line process))))))

(defun sulgrevad-line--drop (line)
  "End the newest connection of LINE."
  (let ((process (sulgrevad-line-process line)) (tty (sulgrevad-line-tty line)))
    (setf (sulgrevad-line-process line) nil (sulgrevad-line-tty line) nil)
    (when process
      (sulgrevad-client-broken (sulgrevad-line-client line))
      (delete-process process))
    (when tty (delete-process tty))))

(defun sulgrevad-line--break (line)
  "The newest connection of LINE is over: another is tried after a pause."
  (sulgrevad-line--drop line)
  (funcall (sulgrevad-line-receive line) 'came nil)
  (sulgrevad-line-schedule line))

(defun sulgrevad-line--lose (line why)
  "No connection of LINE comes any more, because of WHY."
  (unless (sulgrevad-line-why line)
    (setf (sulgrevad-line-why line) why)
    (sulgrevad-line-close line)
    (funcall (sulgrevad-line-receive line) 'lost why)))

(defun sulgrevad-line-close (line &optional passes-on)
  "End the connection of LINE, and try no other.  The session stays at the host.
With PASSES-ON the connection ends once it has carried its last bytes."
  (setf (sulgrevad-line-why line) (or (sulgrevad-line-why line) "the line is closed"))
  (when (sulgrevad-line-timer line) (cancel-timer (sulgrevad-line-timer line)))
  (let ((process (sulgrevad-line-process line)) (tty (sulgrevad-line-tty line)))
    (if (not (and passes-on process)) (sulgrevad-line--drop line)
      (setf (sulgrevad-line-process line) nil (sulgrevad-line-tty line) nil)
      (set-process-filter process #'ignore)
      (set-process-sentinel process (lambda (_ _) (when tty (delete-process tty))))
      (ignore-errors (process-send-eof process)))))

(defun sulgrevad-line-is-open (line)
  "Whether the newest connection of LINE carries the session."
  (and (sulgrevad-line-process line) (memq (sulgrevad-state-line (sulgrevad-line-state line)) '(open late)) t))

(defun sulgrevad-line--changed (line process)
  "The state of PROCESS has changed, which may be the newest connection of LINE."
  (when (and (eq process (sulgrevad-line-process line)) (null (sulgrevad-line-why line)))
    (cond ((process-live-p process) (sulgrevad-line-push line)) ; it was stopped, and goes on
          ((sulgrevad-state-is-known (sulgrevad-line-state line)) (sulgrevad-line--break line))
          (t (while (accept-process-output (sulgrevad-line-errors line) sulgrevad-line-retry)) ; what it told
             (sulgrevad-line--lose line "the host is gone")))))

;;; What is due by the clock

(defun sulgrevad-line--is-timed (line)
  "Whether the times of LINE count: not where the user waits for a connection.
Nor do they where the client can't go on, and so asks the host for nothing."
  (null (if (sulgrevad-line-is-open line) (sulgrevad-line-is-held line) (sulgrevad-line-tty line))))

(defun sulgrevad-line--on-time (line)
  "Do what is due by the clock for LINE."
  (setf (sulgrevad-line-timer line) nil)
  (unless (sulgrevad-line-why line)
    (unless (string-empty-p (sulgrevad-line-unfed line)) (sulgrevad-line--feed line))
    (setf (sulgrevad-line-is-held line) (not (funcall (sulgrevad-line-receive line) 'came nil)))
    (let (tick)
      (while (and (null (sulgrevad-line-why line)) (sulgrevad-line--is-timed line)
                  (setq tick (sulgrevad-client-tick (sulgrevad-line-client line))))
        (pcase tick
          ('connect (sulgrevad-line-connect-again line))
          ('drop (sulgrevad-line--break line)))))
    (sulgrevad-line-schedule line)))

(defun sulgrevad-line--delay (line)
  "Seconds until something is due by the clock for LINE, or nil.
It is a second at most, since the mode line has the time."
  (let ((left (and (sulgrevad-line--is-timed line) (sulgrevad-client-due-in (sulgrevad-line-client line)))))
    (cond ((not (string-empty-p (sulgrevad-line-unfed line))) sulgrevad-line-retry)
          (left (min 1 (/ left 1000.0)))
          ((or (sulgrevad-line-is-held line) (not (sulgrevad-line-is-open line))) 1))))

(defun sulgrevad-line-schedule (line &optional seconds)
  "Have LINE go on when something is due, in so many SECONDS at the latest."
  (let* ((timer (sulgrevad-line-timer line)) (time (and timer (float-time (timer--time timer)))))
    (unless (and seconds time (<= time (+ seconds (float-time)))) ; so each of many edits costs no look at what is due
      (let* ((due (sulgrevad-line--delay line)) (delay (if (and due seconds) (min due seconds) (or due seconds))))
        (when (and delay (null (sulgrevad-line-why line)) (or (null time) (< (+ delay (float-time)) time))) ; a later one puts off none
          (when timer (cancel-timer timer))
          (setf (sulgrevad-line-timer line) (run-with-timer (max 0.01 delay) nil #'sulgrevad-line--on-time line)))))))

;;; Bytes

(defun sulgrevad-line-push (line)
  "Send what the client of LINE has for the host, as much as the pipe takes."
  (let ((inhibit-quit t) (process (sulgrevad-line-process line)) bytes) ; what was taken out is nowhere else
    (condition-case nil
        (while (and process (eq process (sulgrevad-line-process line)) (eq (process-status process) 'run)
                    (not (string-empty-p
                          (setq bytes (sulgrevad-client-take-out (sulgrevad-line-client line))))))
          (process-send-string process bytes))
      (error (when (eq process (sulgrevad-line-process line)) (sulgrevad-line--break line)))) ; the next one brings them again
    (sulgrevad-line-schedule line)))

(defun sulgrevad-line--came (line process bytes)
  "BYTES of PROCESS have come, which may be the newest connection of LINE."
  (when (and (eq process (sulgrevad-line-process line)) (null (sulgrevad-line-why line)))
    (setf (sulgrevad-line-unfed line) (concat (sulgrevad-line-unfed line) bytes))
    (sulgrevad-line--feed line)
    (funcall (sulgrevad-line-receive line) 'came nil)))

(defun sulgrevad-line--feed (line)
  "Give the client of LINE what has come on the newest connection."
  (let ((inhibit-quit t))
    (condition-case nil
        (let ((why (sulgrevad-client-receive (sulgrevad-line-client line) (sulgrevad-line-unfed line))))
          (setf (sulgrevad-line-unfed line) "")
          (cond (why (sulgrevad-line--refused line why))
                ((sulgrevad-line-is-open line) (setf (sulgrevad-line-is-missing line) nil))))
      (sulgrevad-no-memory))))

(defun sulgrevad-line--refused (line status)
  "What came has ended the connection of LINE, or LINE, because of STATUS.
Where a session is not found, a try for which the user waits is the last."
  (let ((is-missing (= status sulgrevad-line--no-session)))
    (cond ((or (eq (sulgrevad-state-line (sulgrevad-line-state line)) 'lost) (and is-missing (sulgrevad-line-tty line)))
           (sulgrevad-line--lose line (cdr (assq status sulgrevad-line--lost))))
          (t (when (and is-missing (not (sulgrevad-line-is-missing line)))
               (setf (sulgrevad-line-is-missing line) t)
               (funcall (sulgrevad-line-receive line) 'told "the host doesn't find the session. It is tried for a minute"))
             (sulgrevad-line--break line)))))

;;; How the line is

(defun sulgrevad-line-told-state (line)
  "How LINE is, for the mode line, or nil where it is well."
  (let* ((state (sulgrevad-line-state line)) (silence (/ (sulgrevad-state-silence state) 1000)))
    (cond ((not (sulgrevad-state-is-late state)) nil)
          ((not (sulgrevad-state-is-broken state)) (format "no answer for %d s" silence))
          ((sulgrevad-line-process line) (format "LINE LOST %d s, connecting" silence))
          (t (let ((left (or (sulgrevad-client-due-in (sulgrevad-line-client line)) 0)))
               (format "LINE LOST %d s, again in %d s" silence (round left 1000)))))))

;;; What its programs say and ask

(defun sulgrevad-line--tell (line text)
  "Programs of LINE have written TEXT to standard error.
A line is told once, however many connections fail by the same."
  (let ((lines (mapcar (lambda (told) (substring told 0 (min sulgrevad-line--most-told (length told))))
                       (split-string (concat (sulgrevad-line-told line) text) "\r?\n"))))
    (setf (sulgrevad-line-told line) (car (last lines)))
    (dolist (told (butlast lines))
      (unless (or (string-empty-p told) (equal told (sulgrevad-line-last-told line)) (sulgrevad-line-why line))
        (setf (sulgrevad-line-last-told line) told)
        (funcall (sulgrevad-line-receive line) 'told told)))))

(defun sulgrevad-line-question (line)
  "What a program of LINE asks on its terminal, or nil.
Such a line ends in a colon or a question mark, and in no newline."
  (let ((asked (car (last (split-string (sulgrevad-line-asks line) "[\r\n]+")))))
    (and (sulgrevad-line-tty line)
         (string-match-p "[:?：] *\\'" asked)
         (string-trim asked))))

(defun sulgrevad-line-answer (line)
  "Ask the user what a program of LINE asks on its terminal."
  (let* ((question (concat (sulgrevad-line-question line) " "))
         (case-fold-search t)
         (is-secret (string-match-p (regexp-opt password-word-equivalents) question))
         (answer (if is-secret (read-passwd question) (read-string question))))
    (setf (sulgrevad-line-asks line) "")
    (when (process-live-p (sulgrevad-line-tty line))
      (process-send-string (sulgrevad-line-tty line) (concat answer "\n")))
    (clear-string answer)))

(provide 'sulgrevad-line)
;;; sulgrevad-line.el ends here
