;;; orgstore-diff.el --- What changed between two texts of bytes  -*- lexical-binding: t; -*-
;; SPDX-License-Identifier: MIT OR Apache-2.0

;;; Commentary:

;; An edit is a list (AT OLD NEW): the bytes NEW in the place of OLD, which stand
;; at the position AT.  The edits of a file go from its end to its start, so that
;; each AT is a position in the old text.
;;
;; The common ends of both texts are found by comparing pieces, as fast as memory is
;; compared.  Between them bytes that occur once in the new text part both in two.

;;; Code:

(defconst orgstore--piece 250000
  "The greatest number of bytes that one line takes away, and that it puts in.
Four times as many, all escaped, are less than the program's limit of a line.")

(defvar orgstore--most-edits 1000
  "How many edits a file may have before they are made one.")

(defun orgstore--common (a from to b start end &optional back)
  "Return how many bytes two strings have in common at their start.
These are the bytes of A between FROM and TO, and those of B between START and
END.  With BACK, return it of their end."
  (let ((most (min (- to from) (- end start))) (done 0) (size 65536))
    (while (> size 0)
      (let ((n (min size (- most done))))
        (if (and (> n 0)
                 (if back
                     (string= (substring a (- to done n) (- to done))
                              (substring b (- end done n) (- end done)))
                   (string= (substring a (+ from done) (+ from done n))
                            (substring b (+ start done) (+ start done n)))))
            (setq done (+ done n))
          (setq size (/ size 2)))))
    done))

(defun orgstore--trim (a b)
  "Return (FRONT . BACK): how much A and B have in common at their ends."
  (let ((front (orgstore--common a 0 (length a) b 0 (length b))))
    (cons front
          (orgstore--common a front (length a) b front (length b) t))))

(defun orgstore--anchor (a from to b start end)
  "Return (I . J) where bytes of A from I on are those of B from J on, or nil.
I is between FROM and TO, J between START and END, and the bytes occur once
between these."
  (let ((b (substring b start end)))
    (seq-some (lambda (part)
                (let* ((i (+ from (/ (* part (- to from)) 8)))
                       (piece (substring a i (min to (+ i 64))))
                       (j (string-search piece b)))
                  (and j (not (string-search piece b (1+ j)))
                       (cons i (+ start j)))))
              '(4 2 6 1 3 5 7))))

(defun orgstore--hunks (a from to b start end coarse)
  "Return how bytes of A become bytes of B: lists (FROM TO START END), rising.
The bytes of A between FROM and TO are those of B between START and END, in the
arguments as in each list.  With COARSE there is one list at most."
  (let* ((front (orgstore--common a from to b start end))
         (from (+ from front))
         (start (+ start front))
         (back (orgstore--common a from to b start end t))
         (to (- to back))
         (end (- end back))
         (split (and (not coarse)
                     (> (min (- to from) (- end start)) 300)
                     (orgstore--anchor a from to b start end))))
    (cond
     ((and (= from to) (= start end)) nil)
     (split (append
             (orgstore--hunks a from (car split) b start (cdr split) nil)
             (orgstore--hunks a (car split) to b (cdr split) end nil)))
     (t (list (list from to start end))))))

(defun orgstore--edits (old new)
  "Return the edits that make the bytes NEW of OLD."
  (let* ((find (lambda (coarse)
                 (orgstore--hunks old 0 (length old) new 0 (length new) coarse)))
         (hunks (funcall find nil))
         edits)
    (when (> (length hunks) orgstore--most-edits)
      (setq hunks (funcall find t)))
    (pcase-dolist (`(,from ,to ,start ,end) hunks)
      (let* ((pieces (1+ (/ (max (- to from) (- end start)) orgstore--piece)))
             (cut (lambda (from to i) (+ from (/ (* i (- to from)) pieces)))))
        (dotimes (i pieces)
          (let ((here (funcall cut from to i)))
            (push (list here
                        (substring old here (funcall cut from to (1+ i)))
                        (substring new (funcall cut start end i)
                                   (funcall cut start end (1+ i))))
                  edits)))))
    edits))

(defun orgstore--reversed (edits)
  "Return the edits that take EDITS back."
  (mapcar (pcase-lambda (`(,at ,old ,new)) (list at new old))
          (reverse edits)))

(defun orgstore--gain (edits)
  "Return how many bytes EDITS add."
  (apply #'+ (mapcar (pcase-lambda (`(,_ ,old ,new))
                       (- (length new) (length old)))
                     edits)))

(defun orgstore--patched (bytes edits)
  "Return BYTES after EDITS, or nil where they don't fit."
  (with-temp-buffer
    (set-buffer-multibyte nil)
    (insert bytes)
    (and (seq-every-p
          (pcase-lambda (`(,from ,old ,new))
            (let* ((from (1+ from)) (to (+ from (length old))))
              (when (and (<= 1 from to (point-max))
                         (string= old (buffer-substring from to)))
                (delete-region from to)
                (goto-char from)
                (insert new)
                t)))
          edits)
         (buffer-string))))

(defun orgstore--field (bytes)
  "Return BYTES as a field of a command line."
  (pcase-dolist (`(,from . ,to)
                 '(("\\" . "\\\\") ("\n" . "\\n") ("\t" . "\\t")))
    (setq bytes (string-replace from to bytes)))
  bytes)

(defun orgstore--line (name edit)
  "Return the command line of EDIT in the file NAME."
  (pcase-let ((`(,at ,old ,new) edit))
    (concat "edit\t" (encode-coding-string name 'utf-8-unix t)
            "\t" (number-to-string at) "\t" (orgstore--field old)
            "\t" (orgstore--field new) "\n")))

(provide 'orgstore-diff)
;;; orgstore-diff.el ends here
