/*
 * What is written in the language itself. SPDX: MIT OR Apache-2.0
 *
 * Where a primitive takes a fixed number of arguments, a procedure of its name calls it; that is made from the table of primitives, and
 * does not stand here. Within this text a primitive's name is the primitive, in its own definition too.
 */
#include "prelude.h"
#include <stddef.h>

/* clang-format off */
const char *const prelude[] = {
    /* numbers */
    "(define (%fold step first rest) (if (null? rest) first (%fold step (step first (car rest)) (cdr rest))))",
    "(define (+ . xs) (%fold (lambda (a b) (+ a b)) 0 xs))",
    "(define (* . xs) (%fold (lambda (a b) (* a b)) 1 xs))",
    "(define (%negate x) (if (and (number? x) (= x 0)) (* -1 x) (- 0 x)))", /* 0.0 becomes -0.0 */
    "(define (- x . xs) (if (null? xs) (%negate x) (%fold (lambda (a b) (- a b)) x xs)))",
    "(define (/ x . xs) (if (null? xs) (/ 1 x) (%fold (lambda (a b) (/ a b)) x xs)))",
    "(define (min x . xs) (%fold (lambda (a b) (min a b)) x xs))",
    "(define (max x . xs) (%fold (lambda (a b) (max a b)) x xs))",
    "(define (bitwise-and . xs) (%fold (lambda (a b) (bitwise-and a b)) -1 xs))",
    "(define (bitwise-or . xs) (%fold (lambda (a b) (bitwise-or a b)) 0 xs))",
    "(define (bitwise-xor . xs) (%fold (lambda (a b) (bitwise-xor a b)) 0 xs))",
    "(define (%ordered before? x xs)"
    "  (or (null? xs) (and (before? x (car xs)) (%ordered before? (car xs) (cdr xs)))))",
    "(define (< x . xs) (%ordered (lambda (a b) (< a b)) x xs))",
    "(define (> x . xs) (%ordered (lambda (a b) (> a b)) x xs))",
    "(define (<= x . xs) (%ordered (lambda (a b) (<= a b)) x xs))",
    "(define (>= x . xs) (%ordered (lambda (a b) (>= a b)) x xs))",
    "(define (= x . xs) (%ordered (lambda (a b) (= a b)) x xs))",
    "(define (char=? x . xs) (%ordered (lambda (a b) (char=? a b)) x xs))",
    "(define (char<? x . xs) (%ordered (lambda (a b) (char<? a b)) x xs))",
    "(define (string=? x . xs) (%ordered (lambda (a b) (string=? a b)) x xs))",
    "(define (string<? x . xs) (%ordered (lambda (a b) (string<? a b)) x xs))",
    "(define (char>? x y . xs) (%ordered (lambda (a b) (char<? b a)) x (cons y xs)))",
    "(define (char<=? x y . xs) (%ordered (lambda (a b) (not (char<? b a))) x (cons y xs)))",
    "(define (char>=? x y . xs) (%ordered (lambda (a b) (not (char<? a b))) x (cons y xs)))",
    "(define (string>? x y . xs) (%ordered (lambda (a b) (string<? b a)) x (cons y xs)))",
    "(define (string<=? x y . xs) (%ordered (lambda (a b) (not (string<? b a))) x (cons y xs)))",
    "(define (string>=? x y . xs) (%ordered (lambda (a b) (not (string<? a b))) x (cons y xs)))",
    "(define (abs x) (if (< x 0) (- x) (+ x 0)))", /* -0.0 becomes 0.0 */
    "(define (magnitude x) (abs x))",
    "(define (square x) (* x x))",
    "(define (inexact? x) (not (exact? x)))",
    "(define (infinite? x) (not (or (finite? x) (nan? x))))",
    "(define (rational? x) (and (number? x) (finite? x)))",
    "(define (%gcd a b) (if (= b 0) (abs a) (%gcd b (remainder a b))))",
    "(define (gcd . xs) (%fold %gcd 0 xs))",
    "(define (lcm . xs) (%fold (lambda (a b) (if (= b 0) b (* (quotient (abs a) (%gcd a b)) (abs b)))) 1 xs))",
    "(define (floor-remainder a b) (modulo a b))",
    "(define (floor-quotient a b) (quotient (- a (modulo a b)) b))",
    "(define (floor/ a b) (values (floor-quotient a b) (modulo a b)))",
    "(define (truncate-quotient a b) (quotient a b))",
    "(define (truncate-remainder a b) (remainder a b))",
    "(define (truncate/ a b) (values (quotient a b) (remainder a b)))",
    "(define (exact-integer-sqrt x) (let ((root (%root x))) (values root (- x (* root root)))))",
    "(define (log x . base) (log x (if (null? base) (if #f #f) (car base))))",
    "(define (atan y . x) (atan y (if (null? x) (if #f #f) (car x))))",
    "(define (expt x n)"
    "  (cond ((not (and (exact-integer? x) (exact-integer? n))) (%power x n))"
    "        ((> n 0) (if (even? n) (square (expt x (quotient n 2))) (* x (expt x (- n 1)))))"
    "        ((= n 0) 1)"
    "        ((= (abs x) 1) (expt x (- n)))"
    "        ((= x 0) (/ 1 x))"
    "        (else (%power x n))))",
    "(define (number->string x . base) (number->string x (if (null? base) 10 (car base))))",
    "(define (string->number x . base) (string->number x (if (null? base) 10 (car base))))",
    /* lists */
    "(define (list . xs) xs)",
    "(define (cons* x . xs) (if (null? xs) x (cons x (apply cons* xs))))",
    "(define (list? x)"
    "  (let race ((slow x) (fast x))"
    "    (cond ((null? fast) #t) ((not (pair? fast)) #f) ((null? (cdr fast)) #t) ((not (pair? (cdr fast))) #f)"
    "          ((eq? (cddr fast) (cdr slow)) (null? (cddr fast))) (else (race (cdr slow) (cddr fast))))))",
    "(define (length x) (let count ((x x) (n 0)) (if (null? x) n (count (cdr x) (+ n 1)))))",
    "(define (%append a b) (if (null? a) b (cons (car a) (%append (cdr a) b))))",
    "(define (append . xs)"
    "  (cond ((null? xs) '()) ((null? (cdr xs)) (car xs)) (else (%append (car xs) (apply append (cdr xs))))))",
    "(define (reverse x) (let turn ((x x) (turned '())) (if (null? x) turned (turn (cdr x) (cons (car x) turned)))))",
    "(define (list-tail x n) (if (= n 0) x (list-tail (cdr x) (- n 1))))",
    "(define (list-ref x n) (car (list-tail x n)))",
    "(define (list-copy x) (if (pair? x) (cons (car x) (list-copy (cdr x))) x))",
    "(define (memq a x) (cond ((null? x) #f) ((eq? a (car x)) x) (else (memq a (cdr x)))))",
    "(define (memv a x) (cond ((null? x) #f) ((eqv? a (car x)) x) (else (memv a (cdr x)))))",
    "(define (%member same? a x) (cond ((null? x) #f) ((same? a (car x)) x) (else (%member same? a (cdr x)))))",
    "(define (member a x . same?) (%member (if (null? same?) equal? (car same?)) a x))",
    "(define (assq a x) (cond ((null? x) #f) ((eq? a (caar x)) (car x)) (else (assq a (cdr x)))))",
    "(define (assv a x) (cond ((null? x) #f) ((eqv? a (caar x)) (car x)) (else (assv a (cdr x)))))",
    "(define (%assoc same? a x) (cond ((null? x) #f) ((same? a (caar x)) (car x)) (else (%assoc same? a (cdr x)))))",
    "(define (assoc a x . same?) (%assoc (if (null? same?) equal? (car same?)) a x))",
    "(define (%map f x) (if (null? x) '() (let ((y (f (car x)))) (cons y (%map f (cdr x))))))",
    "(define (%some-null? xs) (and (pair? xs) (or (null? (car xs)) (%some-null? (cdr xs)))))",
    "(define (map f x . xs)"
    "  (if (null? xs) (%map f x)"
    "      (let next ((xs (cons x xs)))"
    "        (if (%some-null? xs) '()"
    "            (let ((y (apply f (%map car xs)))) (cons y (next (%map cdr xs))))))))",
    "(define (for-each f x . xs)"
    "  (if (null? xs) (let next ((x x)) (if (pair? x) (begin (f (car x)) (next (cdr x)))))"
    "      (let next ((xs (cons x xs)))"
    "        (if (not (%some-null? xs)) (begin (apply f (%map car xs)) (next (%map cdr xs)))))))",
    "(define (filter keep? x)"
    "  (cond ((null? x) '()) ((keep? (car x)) (cons (car x) (filter keep? (cdr x)))) (else (filter keep? (cdr x)))))",
    "(define (fold-left f first x) (if (null? x) first (fold-left f (f first (car x)) (cdr x))))",
    "(define (fold-right f last x) (if (null? x) last (f (car x) (fold-right f last (cdr x)))))",
    "(define (apply f x . xs) (apply f (apply cons* x xs)))",
    "(define (equal? a b)"
    "  (cond ((eqv? a b) #t)"
    "        ((pair? a) (and (pair? b) (equal? (car a) (car b)) (equal? (cdr a) (cdr b))))"
    "        ((string? a) (and (string? b) (string=? a b)))"
    "        ((vector? a)"
    "         (and (vector? b) (= (vector-length a) (vector-length b))"
    "              (let next ((i 0))"
    "                (or (= i (vector-length a)) (and (equal? (vector-ref a i) (vector-ref b i)) (next (+ i 1)))))))"
    "        (else #f)))",
    /* vectors and strings, and ranges of them: all, or from a start, or from a start to an end */
    "(define (%range name length range)"
    "  (let ((end (if (or (null? range) (null? (cdr range))) length (%index name (car (cdr range)) length))))"
    "    (cons (if (null? range) 0 (%index name (car range) end)) end)))",
    "(define (%range->list ref x range)"
    "  (let next ((i (- (cdr range) 1)) (y '())) (if (< i (car range)) y (next (- i 1) (cons (ref x i) y)))))",
    "(define (make-vector n . fill) (make-vector n (if (null? fill) 0 (car fill))))",
    "(define (list->vector x)"
    "  (let ((v (make-vector (length x))))"
    "    (let next ((x x) (i 0)) (if (null? x) v (begin (vector-set! v i (car x)) (next (cdr x) (+ i 1)))))))",
    "(define (vector . xs) (list->vector xs))",
    "(define (vector->list v . range)"
    "  (%range->list (lambda (v i) (vector-ref v i)) v (%range 'vector->list (vector-length v) range)))",
    "(define %few 64)", /* so many elements are written one by one in any case */
    "(define (%fill! v x i end)"
    "  (if (not (and (> (- end i) %few) (%fill-at-once! v x (list i end))))"
    "      (do ((i i (+ i 1))) ((= i end)) (vector-set! v i x))))",
    "(define (%copy! to at from i end)"
    "  (cond ((and (> (- end i) %few) (%copy-at-once! to from (list at i end))) #t)"
    "        ((> at i) (do ((j (- end 1) (- j 1))) ((< j i)) (vector-set! to (+ at (- j i)) (vector-ref from j))))"
    "        (else (do ((i i (+ i 1)) (at at (+ at 1))) ((= i end)) (vector-set! to at (vector-ref from i))))))",
    "(define (vector-fill! v x . range)"
    "  (let ((range (%range 'vector-fill! (vector-length v) range))) (%fill! v x (car range) (cdr range))))",
    "(define (vector-copy v . range)"
    "  (let* ((range (%range 'vector-copy (vector-length v) range)) (w (make-vector (- (cdr range) (car range)))))"
    "    (%copy! w 0 v (car range) (cdr range))"
    "    w))",
    "(define (vector-copy! to at from . range)"
    "  (let ((length (vector-length to)) (range (%range 'vector-copy! (vector-length from) range)))"
    "    (%index 'vector-copy! (+ (%index 'vector-copy! at length) (- (cdr range) (car range))) length)"
    "    (%copy! to at from (car range) (cdr range))))",
    "(define (vector-append . vs)"
    "  (let ((w (make-vector (%fold (lambda (n v) (+ n (vector-length v))) 0 vs))))"
    "    (let next ((vs vs) (at 0))"
    "      (if (null? vs) w"
    "          (let ((end (+ at (vector-length (car vs))))) (%copy! w at (car vs) 0 (- end at)) (next (cdr vs) end))))))",
    "(define (vector-grow v n)"
    "  (let ((w (make-vector n))) (%copy! w 0 v 0 (%index 'vector-grow (vector-length v) n)) w))",
    "(define (vector-map f v . vs)" /* no vector before the last element: a continuation may come back to any */
    "  (if (null? vs)"
    "      (let next ((i 0) (x '()))"
    "        (if (= i (vector-length v)) (list->vector (reverse x)) (next (+ i 1) (cons (f (vector-ref v i)) x))))"
    "      (list->vector (apply map f (vector->list v) (%map vector->list vs)))))",
    "(define (vector-for-each f v . vs)"
    "  (if (null? vs) (do ((i 0 (+ i 1))) ((= i (vector-length v))) (f (vector-ref v i)))"
    "      (apply for-each f (vector->list v) (%map vector->list vs))))",
    "(define (make-string n . fill) (make-string n (if (null? fill) #\\space (car fill))))",
    "(define (substring s from . to) (substring s from (if (null? to) (string-length s) (car to))))",
    "(define (string-copy s . range) (apply substring s (if (null? range) '(0) range)))",
    "(define (string-append . xs) (%fold (lambda (a b) (string-append a b)) \"\" xs))",
    "(define (list->string x)"
    "  (let ((s (make-string (length x))))"
    "    (let next ((x x) (i 0)) (if (null? x) s (begin (string-set! s i (car x)) (next (cdr x) (+ i 1)))))))",
    "(define (string . xs) (list->string xs))",
    "(define (string->list s . range)"
    "  (%range->list (lambda (s i) (string-ref s i)) s (%range 'string->list (string-length s) range)))",
    /* output */
    /* The port of output is a parameter, whose value stands in a global besides. */
    "(define %output-cell (cons #f %output))",
    "(define (current-output-port . change)"
    "  (cond ((null? change) %output)"
    "        ((null? (cdr change)) (set-cdr! (%binding %output-cell) (car change)) (set! %output (car change)))"
    "        (else (cons %output-cell (car change)))))",
    "(define (current-error-port) %errors)",
    "(define (current-input-port) %input)",
    "(define (textual-port? x) (port? x))",
    "(define (write-char c . port) (write-char c (%output-of port)))",
    "(define (%output-of port) (if (null? port) %output (car port)))",
    /* Labels are a pair: the next number, and a list of what is to have one, each with its number where that is written. */
    "(define (%label-of x labels)"
    "  (cond ((null? labels) #f) ((eq? (car (car labels)) x) (car labels)) (else (%label-of x (cdr labels)))))",
    "(define (%write-label label mark port)"
    "  (write-char #\\# port) (%write-atom (cdr label) #f port) (write-char mark port))",
    "(define (%write-rest x quoted? port labels)"
    "  (cond ((null? x) (write-char #\\) port))"
    "        ((and (pair? x) (or (null? (cdr labels)) (not (%label-of x (cdr labels)))))"
    "         (write-char #\\space port) (%write (car x) quoted? port labels) (%write-rest (cdr x) quoted? port labels))"
    "        (else (%write-atom \" . \" #f port) (%write x quoted? port labels) (write-char #\\) port))))",
    "(define (%write-vector v i quoted? port labels)"
    "  (if (< i (vector-length v))"
    "      (begin (if (> i 0) (write-char #\\space port)) (%write (vector-ref v i) quoted? port labels)"
    "             (%write-vector v (+ i 1) quoted? port labels))))",
    "(define (%write-whole x quoted? port labels)"
    "  (cond ((pair? x)"
    "         (write-char #\\( port) (%write (car x) quoted? port labels) (%write-rest (cdr x) quoted? port labels))"
    "        ((vector? x)"
    "         (%write-atom \"#(\" #f port) (%write-vector x 0 quoted? port labels) (write-char #\\) port))"
    "        ((%record? x %error) (%write-atom \"#<error: \" #f port) (%write-error x port) (write-char #\\> port))"
    "        (else (%write-atom x quoted? port))))",
    "(define (%write x quoted? port labels)"
    "  (let ((label (and (pair? (cdr labels)) (%label-of x (cdr labels)))))"
    "    (if (and label (cdr label)) (%write-label label #\\# port)"
    "        (begin"
    "          (if label"
    "              (begin (set-cdr! label (car labels)) (set-car! labels (+ (car labels) 1)) (%write-label label #\\= port)))"
    "          (%write-whole x quoted? port labels)))))",
    /* Whether there is a way without an end: it comes back to a mark on it, which moves on at each depth that is twice the last. */
    "(define (%endless? x mark depth twice)"
    "  (cond ((not (or (pair? x) (vector? x))) #f)"
    "        ((eq? x mark) #t)"
    "        (else"
    "         (let ((mark (if (= depth twice) x mark)) (twice (if (= depth twice) (* 2 twice) twice)) (depth (+ depth 1)))"
    "           (if (pair? x) (or (%endless? (car x) mark depth twice) (%endless? (cdr x) mark depth twice))"
    "               (%any-endless? x 0 mark depth twice))))))",
    "(define (%any-endless? v i mark depth twice)"
    "  (and (< i (vector-length v))"
    "       (or (%endless? (vector-ref v i) mark depth twice) (%any-endless? v (+ i 1) mark depth twice))))",
#ifdef THREADS
    /* Labels for what is met again. Others may see what is written, so it stays as it is: `found` is a pair of a list of what is met again,
     * and of one of all that is met. */
    "(define (%labels x) (let ((found (list '()))) (%meet x found) (cons 0 (car found))))",
    "(define (%meet x found)"
    "  (if (if (vector? x) (> (vector-length x) 0) (pair? x))"
    "      (cond ((memq x (cdr found)) (if (not (assq x (car found))) (set-car! found (cons (cons x #f) (car found)))))"
    "            (else"
    "             (set-cdr! found (cons x (cdr found)))"
    "             (if (pair? x) (begin (%meet (car x) found) (%meet (cdr x) found)) (%meet-from x 0 found))))))",
    "(define (%meet-from v i found)"
    "  (if (< i (vector-length v)) (begin (%meet (vector-ref v i) found) (%meet-from v (+ i 1) found))))",
#else
    /* Labels for what is met again. Meanwhile the first item of each pair and vector that is met is a pair of `met` or `again`, and of
     * that item; `seen` is a pair of the list of these, at whose end each has its item again. */
    "(define (%first x) (if (pair? x) (car x) (vector-ref x 0)))",
    "(define (%set-first! x y) (if (pair? x) (set-car! x y) (vector-set! x 0 y)))",
    "(define (%labels x)"
    "  (let ((met (list 'met)) (again (list 'again)) (seen (list '())))"
    "    (%meet x met again seen)"
    "    (let next ((xs (car seen)) (labels '()))"
    "      (if (null? xs) (cons 0 labels)"
    "          (let ((first (%first (car xs))))"
    "            (%set-first! (car xs) (cdr first))"
    "            (next (cdr xs) (if (eq? (car first) again) (cons (cons (car xs) #f) labels) labels)))))))",
    "(define (%meet x met again seen)"
    "  (if (if (vector? x) (> (vector-length x) 0) (pair? x))"
    "      (let ((first (%first x)))"
    "        (if (and (pair? first) (or (eq? (car first) met) (eq? (car first) again))) (set-car! first again)"
    "            (begin"
    "              (%set-first! x (cons met first))"
    "              (set-car! seen (cons x (car seen)))"
    "              (%meet first met again seen)"
    "              (if (pair? x) (%meet (cdr x) met again seen) (%meet-from x 1 met again seen)))))))",
    "(define (%meet-from v i met again seen)"
    "  (if (< i (vector-length v))"
    "      (begin (%meet (vector-ref v i) met again seen) (%meet-from v (+ i 1) met again seen))))",
#endif
    "(define (%write-ending x quoted? port) (%write x quoted? port (if (%endless? x #f 0 1) (%labels x) '(0))))",
    "(define (write x . port) (%write-ending x #t (%output-of port)))",
    "(define (display x . port) (%write-ending x #f (%output-of port)))",
    "(define (write-shared x . port) (%write x #t (%output-of port) (%labels x)))",
    "(define (write-simple x . port) (%write x #t (%output-of port) '(0)))",
    "(define (newline . port) (write-char #\\newline (%output-of port)))",
    "(define (write-string s . rest)"
    "  (let ((port (%output-of rest)) (range (if (null? rest) rest (cdr rest))))"
    "    (if (not (string? s)) (error \"write-string: not a string\"))"
    "    (%write-atom (if (null? range) s (apply substring s range)) #f port)))",
    "(define (flush-output-port . port) (if #f #f))",
    "(define (%write-line x)"
    "  (for-each (lambda (x) (if (not (eq? x (if #f #f))) (begin (%write-ending x #t %output) (newline)))) (%values->list x)))",
    /* input */
    "(define (read-char . port) (read-char (%input-of port)))",
    "(define (peek-char . port) (peek-char (%input-of port)))",
    "(define (read-line . port) (read-line (%input-of port)))",
    "(define (read-string n . port) (read-string n (%input-of port)))",
    "(define (char-ready? . port) #t)",
    "(define (eof-object) %end)",
    "(define (%input-of port) (if (null? port) %input (car port)))",
    "(define (close-port port) (if #f #f))",
    "(define (close-input-port port) (if #f #f))",
    "(define (close-output-port port) (if #f #f))",
    "(define (call-with-port port use) (use port))",
    "(define (read . port)"
    "  (let ((x (%read (%source-of (%input-of port))))) (if (eq? x %dot) (%read-fault \"read: a dot where none can stand\") x)))",
    /* a datum of the standard input is taken at once, whoever reads there besides */
    "(define (%source-of port) (if (eq? port %input) (open-input-string (%datum-text)) port))",
    "(define (%read-fault what) (%raise-error 'read what '()))",
    "(define (%skip-line port)"
    "  (let ((c (read-char port))) (if (not (or (eof-object? c) (char=? c #\\newline))) (%skip-line port))))",
    "(define (%skip-block port depth before)"
    "  (if (> depth 0)"
    "      (let ((c (read-char port)))"
    "        (cond ((eof-object? c) (%read-fault \"read: a comment without an end\"))"
    "              ((and (eq? before #\\|) (eq? c #\\#)) (%skip-block port (- depth 1) #\\space))"
    "              ((and (eq? before #\\#) (eq? c #\\|)) (%skip-block port (+ depth 1) #\\space))"
    "              (else (%skip-block port depth c))))))",
    /* what the next datum begins with, which is still to be read, but for a # */
    "(define (%next port)"
    "  (let ((c (peek-char port)))"
    "    (cond ((eof-object? c) c)"
    "          ((char-whitespace? c) (read-char port) (%next port))"
    "          ((char=? c #\\;) (%skip-line port) (%next port))"
    "          ((not (char=? c #\\#)) c)"
    "          (else"
    "           (read-char port)"
    "           (case (peek-char port)"
    "             ((#\\;) (read-char port) (%read-datum port) (%next port))"
    "             ((#\\|) (read-char port) (%skip-block port 1 #\\space) (%next port))"
    "             (else c))))))",
    "(define (%read port) (%read-from (%next port) port))",
    "(define (%read-datum port)"
    "  (let ((x (%read port))) (if (eof-object? x) (%read-fault \"read: the end within a datum\") x)))",
    "(define (%read-from c port)"
    "  (cond ((or (eof-object? c) (char=? c #\\#)) (if (eof-object? c) c (%read-hash port)))"
    "        ((not (memq c '(#\\( #\\) #\\' #\\` #\\, #\\\" #\\|))) (%token->datum (%read-token port '())))"
    "        (else"
    "         (read-char port)"
    "         (case c"
    "           ((#\\() (%read-items port '()))"
    "           ((#\\)) (%read-fault \"read: a ) without a (\"))"
    "           ((#\\') (list 'quote (%read-datum port)))"
    "           ((#\\`) (list 'quasiquote (%read-datum port)))"
    "           ((#\\,)"
    "            (if (eq? (peek-char port) #\\@)"
    "                (begin (read-char port) (list 'unquote-splicing (%read-datum port)))"
    "                (list 'unquote (%read-datum port))))"
    "           ((#\\\") (list->string (%read-text port #\\\" '())))"
    "           (else (string->symbol (list->string (%read-text port #\\| '()))))))))",
    "(define (%read-items port items)"
    "  (let ((c (%next port)))"
    "    (cond ((eof-object? c) (%read-fault \"read: a list without an end\"))"
    "          ((char=? c #\\)) (read-char port) (reverse items))"
    "          (else"
    "           (let ((x (%read-from c port)))"
    "             (cond ((not (eq? x %dot)) (%read-items port (cons x items)))"
    "                   ((null? items) (%read-fault \"read: a dot where none can stand\"))"
    "                   (else (%read-tail port items (%read-datum port)))))))))",
    "(define (%read-tail port items tail)"
    "  (if (not (eq? (%next port) #\\))) (%read-fault \"read: two data after a dot\"))"
    "  (read-char port)"
    "  (%append-reverse items tail))",
    "(define (%append-reverse x tail) (if (null? x) tail (%append-reverse (cdr x) (cons (car x) tail))))",
    "(define (%read-text port mark bytes)"
    "  (let ((c (read-char port)))"
    "    (cond ((eof-object? c) (%read-fault \"read: a string without an end\"))"
    "          ((char=? c mark) (reverse bytes))"
    "          ((char=? c #\\\\) (%read-text port mark (%read-escape (read-char port) port bytes)))"
    "          (else (%read-text port mark (cons c bytes))))))",
    "(define (%read-escape c port bytes)" /* what stands before it, and its character, where it has one */
    "  (case c"
    "    ((#\\n) (cons #\\newline bytes)) ((#\\t) (cons #\\tab bytes)) ((#\\r) (cons #\\return bytes))"
    "    ((#\\a) (cons #\\alarm bytes)) ((#\\b) (cons #\\backspace bytes)) ((#\\\\ #\\\" #\\|) (cons c bytes))"
    "    ((#\\x) (cons (%read-code (read-char port) port 0) bytes))"
    "    (else (%skip-line-end c port) bytes)))",
    "(define (%read-code c port code)"
    "  (let ((digit (and (char? c) (string->number (string c) 16))))"
    "    (cond ((and digit (< code 256)) (%read-code (read-char port) port (+ (* 16 code) digit)))"
    "          ((and (eq? c #\\;) (< code 256)) (integer->char code))"
    "          (else (%read-fault \"read: no such escape\")))))",
    "(define (%skip-line-end c port)"
    "  (cond ((eq? c #\\newline) (%skip-blanks port))"
    "        ((memq c '(#\\space #\\tab)) (%skip-line-end (read-char port) port))"
    "        (else (%read-fault \"read: no such escape\"))))",
    "(define (%skip-blanks port)"
    "  (if (memq (peek-char port) '(#\\space #\\tab)) (begin (read-char port) (%skip-blanks port))))",
    "(define (%ends-token? c)"
    "  (or (eof-object? c) (char-whitespace? c) (memq c '(#\\( #\\) #\\\" #\\; #\\' #\\` #\\, #\\|))))",
    "(define (%read-token port bytes)"
    "  (if (%ends-token? (peek-char port)) (list->string (reverse bytes)) (%read-token port (cons (read-char port) bytes))))",
    "(define (%token->datum token)"
    "  (cond ((string=? token \".\") %dot) ((string->number token))"
    "        ((string->number (string-append token \"e0\")) (%read-fault \"read: an integer of more than 62 bits\"))"
    "        (else (string->symbol token))))",
    "(define (%read-hash port)"
    "  (case (peek-char port)"
    "    ((#\\() (read-char port) (list->vector (%read-items port '())))"
    "    ((#\\\\) (read-char port) (%read-named port (list (read-char port))))"
    "    (else (%hash->datum (%read-token port '(#\\#))))))",
    "(define (%read-named port first)"
    "  (if (eof-object? (car first)) (%read-fault \"read: a character without a name\"))"
    "  (or (%named-character (%read-token port first)) (%read-fault \"read: no such character\")))",
    "(define (%hash->datum token)"
    "  (cond ((member token '(\"#t\" \"#true\")) #t) ((member token '(\"#f\" \"#false\")) #f) ((string->number token))"
    "        (else (%read-fault \"read: unknown after #\"))))",
    /* several values */
    "(define (values . xs) (%list->values xs))",
    "(define (call-with-values make use) (apply use (%values->list (make))))",
    "(define (%want-count x n rest?)"
    "  (let ((count (length x)))"
    "    (if (if rest? (< count n) (not (= count n))) (error \"a wrong number of values\"))"
    "    x))",
    /* The dynamic state is a list, the innermost first: a pair of `dynamic-wind`, a handler, or a vector where a handler runs, of the state
     * in which other handlers are looked for, and of the position of what it handles. */
    "(define (%rewind to)"
    "  (if (not (eq? to %state))"
    "      (let ((common (%common %state (length %state) to (length to)))) (%unwind common) (%wind to common))))",
    "(define (%common a m b n)"
    "  (cond ((> m n) (%common (cdr a) (- m 1) b n)) ((< m n) (%common a m (cdr b) (- n 1))) ((eq? a b) a)"
    "        (else (%common (cdr a) (- m 1) (cdr b) (- n 1)))))",
    "(define (%unwind to)"
    "  (if (not (eq? %state to))"
    "      (let ((inner (car %state)))"
    "        (set! %state (cdr %state))"
    "        (if (pair? inner) ((cdr inner)))"
    "        (%unwind to))))",
    "(define (%wind to from)"
    "  (if (not (eq? to from))"
    "      (begin (%wind (cdr to) from) (if (pair? (car to)) ((caar to))) (set! %state to))))",
    "(define (%go-on k x) (%rewind (%continuation-state k)) (%resume k x))",
    "(define (%within inner thunk)"
    "  (let ((outer %state))"
    "    (set! %state (cons inner outer))"
    "    (let ((x (thunk))) (set! %state outer) x)))",
    "(define (dynamic-wind before thunk after) (before) (let ((x (%within (cons before after) thunk))) (after) x))",
    /* A parameter has a cell, whose second is its value unless a binding has one: a pair of that cell and of the value. The bindings are a
     * list, the innermost first. A parameter of no arguments answers its value; one argument becomes its value; with a second it is
     * converted, and the binding is answered. */
    "(define (%binding cell)"
    "  (let next ((x %bindings)) (cond ((null? x) cell) ((eq? (car (car x)) cell) (car x)) (else (next (cdr x))))))",
    "(define (make-parameter value . convert)"
    "  (let* ((convert (if (null? convert) (lambda (x) x) (car convert))) (cell (cons #f (convert value))))"
    "    (lambda change"
    "      (cond ((null? change) (cdr (%binding cell))) ((null? (cdr change)) (set-cdr! (%binding cell) (car change)))"
    "            (else (cons cell (convert (car change))))))))",
    "(define (%bind bindings) (set! %bindings bindings) (set! %output (cdr (%binding %output-cell))))",
    "(define (%parameterize others thunk)"
    "  (let* ((outer %bindings) (inner (%append (%map (lambda (x) ((car x) (cdr x) #t)) others) outer)))"
    "    (dynamic-wind (lambda () (%bind inner)) thunk (lambda () (%bind outer)))))",
    /* exceptions */
    "(define (with-exception-handler handler thunk)"
    "  (if (procedure? handler) (%within handler thunk) (error \"with-exception-handler: not a procedure\")))",
    "(define (%handlers state)"
    "  (cond ((null? state) state) ((pair? (car state)) (%handlers (cdr state)))"
    "        ((vector? (car state)) (%handlers (vector-ref (car state) 0))) (else state)))",
    "(define (%raise x at continues?)"
    "  (let ((handlers (%handlers %state)) (outer %state))"
    "    (if (null? handlers) (%tell x at))"
    "    (set! %state (cons (vector (cdr handlers) at) outer))"
    "    (let ((y ((car handlers) x)))"
    "      (if (not continues?) (%raise (%make-error 'error \"a handler returned, and nothing goes on after:\" (list x) at) at #f))"
    "      (set! %state outer)"
    "      y)))",
    "(define (raise x) (%raise x (%position) #f))",
    "(define (raise-continuable x) (%raise x (%position) #t))",
    "(define (%raised-at state) (if (vector? (car state)) (vector-ref (car state) 1) (%raised-at (cdr state))))",
    "(define (%guard body handle)"
    "  ((call/cc"
    "    (lambda (out)"
    "      (with-exception-handler"
    "       (lambda (x)"
    "         ((call/cc"
    "           (lambda (back)"
    "             (out (lambda () (handle x (lambda () (back (lambda () (%raise x (%raised-at %state) #t)))))))))))"
    "       (lambda () (let ((x (body))) (lambda () x))))))))",
    "(define (%make-error kind message irritants at)"
    "  (let ((e (%record-new 0)))"
    "    (%record-set! e 0 message) (%record-set! e 1 irritants) (%record-set! e 2 at) (%record-set! e 3 kind)"
    "    e))",
    "(define (%raise-error kind message irritants)"
    "  (%raise (%make-error kind message irritants (%position)) (%position) #f))",
    "(define (error message . irritants) (%raise-error 'error message irritants))",
    "(define (%raise-fault message at) (%raise (%make-error 'fault message '() at) at #f))",
    "(define (error-object? x) (%record? x %error))",
    "(define (error-object-message e) (%record-ref e 0))",
    "(define (error-object-irritants e) (%record-ref e 1))",
    "(define (%is-error? x kind) (and (error-object? x) (eq? (%record-ref x 3) kind)))",
    "(define (read-error? x) (%is-error? x 'read))",
    "(define (file-error? x) #f)",
    "(define (%write-error e port)"
    "  (%write-ending (error-object-message e) #f port)"
    "  (if (%is-error? e 'uncaught) (begin (write-char #\\space port) (%write-raised (car (error-object-irritants e)) port))"
    "      (for-each (lambda (x) (write-char #\\space port) (%write-ending x #t port)) (error-object-irritants e))))",
    "(define (%write-raised x port)"
    "  (if (error-object? x) (%write-error x port)"
    "      (begin (%write-atom \"not caught: \" #f port) (%write-ending x #t port))))",
    "(define (%tell x at)"
    "  (%begin-fault (if (error-object? x) (%record-ref x 2) at))"
    "  (%write-raised x %errors)"
    "  (%end-fault))",
    "(define (emergency-exit . status)"
    "  (%exit (cond ((or (null? status) (eq? (car status) #t)) 0) ((eq? (car status) #f) 1) (else (car status)))))",
    "(define (exit . status) (%rewind '()) (apply emergency-exit status))",
#ifdef THREADS
    /* threads; the names with a point are fields of records */
    "(define (thread? x) (%record? x %thread-type))",
    "(define (make-thread thunk . name)"
    "  (if (not (procedure? thunk)) (error \"make-thread: not a procedure\"))"
    "  (let ((t (%record-new %thread.number)))"
    "    (%record-set! t %thread.number (%thread-new))"
    "    (%record-set! t %thread.name (if (null? name) #f (car name)))"
    "    (%record-set! t %thread.thunk thunk)"
    "    (%record-set! t %thread.bindings %bindings)"
    "    t))",
    "(define (current-thread) %thread)",
    "(define (thread-name t) (%record-ref t %thread.name))",
    "(define (thread-specific t) (%record-ref t %thread.specific))",
    "(define (thread-specific-set! t x) (%record-set! t %thread.specific x))",
    "(define (thread-start! t) (%thread-start t (%record-ref t %thread.number)) t)",
    "(define (thread-sleep! timeout)"
    "  (if (not timeout) (error \"thread-sleep!: not a time\"))"
    "  (%thread-sleep (%moment timeout)))",
    "(define (%run-thread t)"
    "  (let ((thunk (%record-ref t %thread.thunk)))"
    "    (%record-set! t %thread.thunk #f)"
    "    (%bind (%record-ref t %thread.bindings))"
    "    (let ((x (%within (lambda (x) (%fail-thread x (%raised-at %state))) thunk))) (%record-set! %thread %thread.result x))))",
    /* The thread may be another than the one whose continuation it goes on with; the first tells an error as without threads. */
    "(define (%fail-thread x at)"
    "  (if (eq? (%record-ref %thread %thread.number) 1) (%tell x at))"
    "  (%record-set! %thread %thread.result x)"
    "  (%record-set! %thread %thread.failed-at at)"
    "  (%thread-end))",
    "(define (thread-join! t . rest)"
    "  (let ((told (%thread-join (%record-ref t %thread.number) (%moment (if (null? rest) #f (car rest))))))"
    "    (cond ((eq? told 0)"
    "           (if (or (null? rest) (null? (cdr rest))) (%raise-error 'join-timeout \"thread-join!: the thread goes on\" '())"
    "               (car (cdr rest))))"
    "          ((eq? told 2) (%raise-error 'terminated \"thread-join!: the thread was terminated\" '()))"
    "          ((%record-ref t %thread.failed-at)"
    "           (%raise-error 'uncaught (%failed (%record-ref t %thread.failed-at)) (list (%record-ref t %thread.result))))"
    "          (else (%record-ref t %thread.result)))))",
    /* the end of the first thread is that of the program */
    "(define (thread-terminate! t)"
    "  (let ((number (%record-ref t %thread.number)))"
    "    (if (eq? number 1)"
    "        (%tell (%make-error 'terminated \"thread-terminate!: the first thread was terminated\" '() (%position)) #f)"
    "        (%thread-terminate number))))",
    "(define (%failed at)"
    "  (let ((line (quotient at 536870912)) (column (remainder at 536870912)))"
    "    (if (= line 0) \"the thread's error:\""
    "        (string-append \"the thread's error at \" (number->string line) \":\" (number->string column) \":\"))))",
    "(define (join-timeout-exception? x) (%is-error? x 'join-timeout))",
    "(define (abandoned-mutex-exception? x) (%is-error? x 'abandoned))",
    "(define (terminated-thread-exception? x) (%is-error? x 'terminated))",
    "(define (uncaught-exception? x) (%is-error? x 'uncaught))",
    "(define (uncaught-exception-reason x)"
    "  (if (uncaught-exception? x) (car (error-object-irritants x)) (error \"uncaught-exception-reason: not of a thread\" x)))",
    /* times: a moment is one, or a number of seconds from now on */
    "(define (seconds->time x) (let ((t (%record-new %time.seconds))) (%record-set! t %time.seconds (+ x 0.0)) t))",
    "(define (time->seconds t) (%record-ref t %time.seconds))",
    "(define (current-time) (seconds->time (%now)))",
    "(define (time? x) (%record? x %time-type))",
    "(define (%moment x) (cond ((not x) x) ((time? x) (time->seconds x)) (else (+ (%now) x))))",
    /* mutexes and condition variables */
    "(define (mutex? x) (%record? x %mutex-type))",
    "(define (make-mutex . name)"
    "  (let ((m (%record-new %mutex.number)))"
    "    (%record-set! m %mutex.number (%new-number))"
    "    (%record-set! m %mutex.name (if (null? name) #f (car name)))"
    "    m))",
    "(define (mutex-name m) (%record-ref m %mutex.name))",
    "(define (mutex-specific m) (%record-ref m %mutex.specific))",
    "(define (mutex-specific-set! m x) (%record-set! m %mutex.specific x))",
    "(define (mutex-lock! m . rest)"
    "  (let* ((number (%record-ref m %mutex.number))"
    "         (t (if (or (null? rest) (null? (cdr rest))) %thread (car (cdr rest))))"
    "         (owner (if t (%record-ref t %thread.number) 0))"
    "         (other? (if t (not (eq? t %thread)) #f))"
    "         (told (%mutex-lock number (if other? (- owner) owner) (if (null? rest) #f (%moment (car rest))))))"
    "    (if (and other? (not (eq? told 0))) (begin (%record-set! m %mutex.owner t) (%mutex-name-owner number)))"
    "    (if (eq? told 2) (%raise-error 'abandoned \"mutex-lock!: the mutex's owner has ended\" '()))"
    "    (eq? told 1)))",
    "(define (mutex-unlock! m . rest)"
    "  (if (or (null? rest) (not (car rest))) (begin (%mutex-unlock (%record-ref m %mutex.number)) #t)"
    "      (%mutex-wait (%record-ref m %mutex.number) (%record-ref (car rest) %condition.number)"
    "                   (if (null? (cdr rest)) #f (%moment (car (cdr rest)))))))",
    /* The owner is a thread that lives, or one that was named as it was locked. */
    "(define (mutex-state m)"
    "  (let ((state (%mutex-state (%record-ref m %mutex.number))))"
    "    (cond ((eq? state #t) 'abandoned) ((eq? state #f) 'not-abandoned) ((eq? state 0) 'not-owned)"
    "          (else (or (%owner (%thread-find state) state) (%owner (%record-ref m %mutex.owner) state) (mutex-state m))))))",
    "(define (%owner t number) (and t (eq? (%record-ref t %thread.number) number) t))",
    "(define (condition-variable? x) (%record? x %condition-type))",
    "(define (make-condition-variable . name)"
    "  (let ((c (%record-new %condition.number)))"
    "    (%record-set! c %condition.number (%new-number))"
    "    (%record-set! c %condition.name (if (null? name) #f (car name)))"
    "    c))",
    "(define (condition-variable-name c) (%record-ref c %condition.name))",
    "(define (condition-variable-specific c) (%record-ref c %condition.specific))",
    "(define (condition-variable-specific-set! c x) (%record-set! c %condition.specific x))",
    "(define (condition-variable-signal! c) (%condition-signal (%record-ref c %condition.number) #f))",
    "(define (condition-variable-broadcast! c) (%condition-signal (%record-ref c %condition.number) #t))",
    /* what such a heap doesn't have */
    "(define (%no-weak . xs) (error \"a heap that threads share has no weak pairs and no guardians yet\"))",
    "(define weak-cons %no-weak)",
    "(define make-guardian %no-weak)",
#else
    "(define (%no-threads . xs) (error \"threads want the option --threads\"))",
    "(define make-thread %no-threads)",
    "(define make-mutex %no-threads)",
    "(define make-condition-variable %no-threads)",
    "(define current-thread %no-threads)",
#endif
    NULL};
/* clang-format on */
