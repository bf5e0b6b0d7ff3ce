#!/usr/bin/env bash
# Asks the same questions of the program, of MONA and of z3's command line, and prints each answer with the milliseconds of a
# processor. MONA knows trees without numbers and texts, with finitely many labels, here as sets of nodes of a tree; z3 knows
# numbers and texts, and trees only as data that Horn clauses speak of. What one can't be asked has a `-`, and the lines under
# the table say why. Each question is a statement, and each has ten seconds of a processor and four gigabytes. Ends with 0
# where no two answers differ.
. "$(dirname "${BASH_SOURCE[0]}")/common.sh"
seconds=10

# The nodes of a tree whose inner nodes have two children: all of D.
tree='var2 D; assert root in D & (all1 p: p in D & p ~= root => p^ in D) & (all1 p: p.0 in D <=> p.1 in D);'

# What is asked, with a file for each of the three that can be asked.
question() {
  name=$1
  statements+=("$name")
  statement[$name]=$2
}

# Text of the question for one of the three.
to() { cat >"$folder/$name.$1"; }

declare -A statement
statements=()

question formulas 'no formula is true and false at once'
to fast <<'T'
type F[]{yes(0), no(0), all(2), any(2)}
lang true_ones : F { yes() | all(x, y) given (true_ones x) (true_ones y) | any(x, y) given (true_ones x) | any(x, y) given (true_ones y) }
lang false_ones : F { no() | any(x, y) given (false_ones x) (false_ones y) | all(x, y) given (false_ones x) | all(x, y) given (false_ones y) }
assert-true (is-empty (intersect true_ones false_ones))
T
to mona <<T
ws2s; $tree
var2 Y, O, T, F;
assert all1 p: (p in T <=> (p in D & ((p.0 notin D & p in Y) | (p.0 in D & p notin O & p.0 in T & p.1 in T) | (p.0 in D & p in O & (p.0 in T | p.1 in T)))));
assert all1 p: (p in F <=> (p in D & ((p.0 notin D & p notin Y) | (p.0 in D & p in O & p.0 in F & p.1 in F) | (p.0 in D & p notin O & (p.0 in F | p.1 in F)))));
~(root in T & root in F);
T

question parity 'trees with evenly many a are those without oddly many'
to fast <<'T'
type B[]{a(0), b(0), n(2)}
lang even : B { b() | n(x, y) given (even x) (even y) | n(x, y) given (odd x) (odd y) }
lang odd : B { a() | n(x, y) given (even x) (odd y) | n(x, y) given (odd x) (even y) }
assert-true even == (complement odd)
T
to mona <<T
ws2s; $tree
var2 A, E, O;
assert all1 p: (p in E <=> (p in D & ((p.0 notin D & p notin A) | (p.0 in D & ((p.0 in E & p.1 in E) | (p.0 in O & p.1 in O))))));
assert all1 p: (p in O <=> (p in D & ((p.0 notin D & p in A) | (p.0 in D & ((p.0 in E & p.1 in O) | (p.0 in O & p.1 in E))))));
root in E <=> root notin O;
T

question balance 'no tree balanced as AVL trees are has the height 7'
to fast <<'T'
type B[]{a(0), n(2)}
lang h0 : B { a() }
lang h1 : B { n(x, y) given (h0 x) (h0 y) }
lang h2 : B { n(x, y) given (h1 x) (h1 y) | n(x, y) given (h1 x) (h0 y) | n(x, y) given (h0 x) (h1 y) }
lang h3 : B { n(x, y) given (h2 x) (h2 y) | n(x, y) given (h2 x) (h1 y) | n(x, y) given (h1 x) (h2 y) }
lang h4 : B { n(x, y) given (h3 x) (h3 y) | n(x, y) given (h3 x) (h2 y) | n(x, y) given (h2 x) (h3 y) }
lang h5 : B { n(x, y) given (h4 x) (h4 y) | n(x, y) given (h4 x) (h3 y) | n(x, y) given (h3 x) (h4 y) }
lang h6 : B { n(x, y) given (h5 x) (h5 y) | n(x, y) given (h5 x) (h4 y) | n(x, y) given (h4 x) (h5 y) }
lang h7 : B { n(x, y) given (h6 x) (h6 y) | n(x, y) given (h6 x) (h5 y) | n(x, y) given (h5 x) (h6 y) }
assert-true (is-empty h7)
T
{
  echo "ws2s; $tree"
  echo 'var2 H0, H1, H2, H3, H4, H5, H6, H7;'
  echo 'assert all1 p: (p in H0 <=> (p in D & p.0 notin D));'
  echo 'assert all1 p: (p in H1 <=> (p.0 in H0 & p.1 in H0));'
  for k in 1 2 3 4 5 6; do
    one=H$k two=H$((k - 1))
    echo "assert all1 p: (p in H$((k + 1)) <=> ((p.0 in $one & p.1 in $one) | (p.0 in $one & p.1 in $two) | (p.0 in $two & p.1 in $one)));"
  done
  echo '~(root in H7);'
} | to mona

question pages 'no page without scripts has one'
to fast <<'T'
type Page[tag : String]{end(0), node(2)}
lang clean : Page { end() | node(x, y) where tag != "script" given (clean x) (clean y) }
lang script : Page { node(x, y) where tag = "script" | node(x, y) given (script x) | node(x, y) given (script y) }
assert-true (is-empty (intersect clean script))
T
to mona <<T
ws2s; $tree
var2 S, C, X;
assert all1 p: (p in C <=> (p in D & (p.0 notin D | (p notin S & p.0 in C & p.1 in C))));
assert all1 p: (p in X <=> (p.0 in D & (p in S | p.0 in X | p.1 in X)));
~(root in C & root in X);
T

question halves 'no even number is odd'
to fast <<'T'
type N[x : Int, y : Int]{z(0)}
lang p : N { z() where 2 * x = 2 * y + 1 }
assert-true (is-empty p)
T
to smt2 <<'T'
(declare-const x Int)(declare-const y Int)
(assert (= (* 2 x) (+ (* 2 y) 1)))
(check-sat)
T

question remainders 'no number above 1,000 has these three remainders'
to fast <<'T'
type N[x : Int]{z(0)}
lang p : N { z() where x % 97 = 5 and x % 101 = 7 and x % 103 = 11 and x > 1000 }
assert-true (is-empty p)
T
to smt2 <<'T'
(declare-const x Int)
(assert (and (= (mod x 97) 5) (= (mod x 101) 7) (= (mod x 103) 11) (> x 1000)))
(check-sat)
T

question texts 'of equal texts both are a or none is'
to fast <<'T'
type W[s : String, t : String, u : String]{z(0)}
lang p : W { z() where s = t and t = u and s = "a" and u != "a" }
assert-true (is-empty p)
T
to smt2 <<'T'
(declare-const s String)(declare-const t String)(declare-const u String)
(assert (and (= s t) (= t u) (= s "a") (not (= u "a"))))
(check-sat)
T

# Lists of numbers as data, and languages as predicates of which Horn clauses speak: `sat` says that no list is in both.
data='(set-logic HORN)
(declare-datatypes ((P 0)) (((none) (parcel (w Int) (f Bool) (r P)))))
(declare-fun taken (P) Bool)(declare-fun heavy (P) Bool)(declare-fun crushed (P) Bool)(declare-fun light (P) Bool)
(assert (taken none))
(assert (forall ((w Int) (f Bool) (r P)) (=> (and (> w 0) (<= w 31500) (taken r)) (taken (parcel w f r)))))
(assert (forall ((w Int) (f Bool) (r P)) (=> (>= w 10000) (heavy (parcel w f r)))))
(assert (forall ((w Int) (f Bool) (r P)) (=> (heavy r) (heavy (parcel w f r)))))
(assert (forall ((w Int) (f Bool) (r P)) (=> (and f (heavy r)) (crushed (parcel w f r)))))
(assert (forall ((w Int) (f Bool) (r P)) (=> (crushed r) (crushed (parcel w f r)))))
(assert (light none))
(assert (forall ((w Int) (f Bool) (r P)) (=> (and (< w 10000) (light r)) (light (parcel w f r)))))'
parcels='type P[w : Int, f : Bool]{none(0), parcel(1)}
lang taken : P { none() | parcel(r) where w > 0 and w <= 31500 given (taken r) }
lang heavy : P { parcel(r) where w >= 10000 | parcel(r) given (heavy r) }
lang crushed : P { parcel(r) where f given (heavy r) | parcel(r) given (crushed r) }
lang light : P { none() | parcel(r) where w < 10000 given (light r) }'

question crushed 'no parcels that are taken are crushed'
to fast <<T
$parcels
assert-true (is-empty (intersect taken crushed))
T
to horn <<T
$data
(assert (forall ((p P)) (=> (and (taken p) (crushed p)) false)))
(check-sat)
T

question light 'no light parcels are crushed'
to fast <<T
$parcels
assert-true (is-empty (intersect light crushed))
T
to horn <<T
$data
(assert (forall ((p P)) (=> (and (light p) (crushed p)) false)))
(check-sat)
T

question sanitiser 'a sanitiser leaves no script in any page'
to fast <<'T'
type Page[tag : String]{end(0), node(2)}
lang page : Page { end() | node(x, y) given (page x) (page y) }
lang clean : Page { end() | node(x, y) where tag != "script" given (clean x) (clean y) }
trans drop : Page -> Page { end() to (end [tag]) | node(x, y) where tag != "script" to (node [tag] (drop x) (drop y)) | node(x, y) where tag = "script" to (drop y) }
assert-true (type-check page drop clean)
T
# tags are numbers here, since these clauses know no texts, and a script is 0
to horn <<'T'
(set-logic HORN)
(declare-datatypes ((P 0)) (((end) (node (tag Int) (below P) (next P)))))
(declare-fun drop (P P) Bool)(declare-fun script (P) Bool)
(assert (drop end end))
(assert (forall ((t Int) (x P) (y P) (v P) (w P)) (=> (and (not (= t 0)) (drop x v) (drop y w)) (drop (node t x y) (node t v w)))))
(assert (forall ((x P) (y P) (w P)) (=> (drop y w) (drop (node 0 x y) w))))
(assert (forall ((x P) (y P)) (script (node 0 x y))))
(assert (forall ((t Int) (x P) (y P)) (=> (script x) (script (node t x y)))))
(assert (forall ((t Int) (x P) (y P)) (=> (script y) (script (node t x y)))))
(assert (forall ((p P) (q P)) (=> (and (drop p q) (script q)) false)))
(check-sat)
T

question fused 'adding one twice to all numbers gives no list with 1 from one of zeros'
to fast <<'T'
type L[x : Int]{nil(0), cons(1)}
lang zeros : L { nil() | cons(y) where x = 0 given (zeros y) }
lang one : L { cons(y) where x = 1 | cons(y) given (one y) }
trans add : L -> L { nil() to (nil [0]) | cons(y) to (cons [x + 1] (add y)) }
assert-true (is-empty (restrict (restrict-out (compose add add) one) zeros))
T
to horn <<'T'
(set-logic HORN)
(declare-datatypes ((L 0)) (((nil) (cons (x Int) (r L)))))
(declare-fun add (L L) Bool)(declare-fun zeros (L) Bool)(declare-fun one (L) Bool)
(assert (add nil nil))
(assert (forall ((k Int) (r L) (s L)) (=> (add r s) (add (cons k r) (cons (+ k 1) s)))))
(assert (zeros nil))
(assert (forall ((r L)) (=> (zeros r) (zeros (cons 0 r)))))
(assert (forall ((r L)) (one (cons 1 r))))
(assert (forall ((k Int) (r L)) (=> (one r) (one (cons k r)))))
(assert (forall ((p L) (q L) (r L)) (=> (and (zeros p) (add p q) (add q r) (one r)) false)))
(check-sat)
T

# Runs the command, and says which of the two patterns what it writes has: the first is that the statement is true, the second
# that it is false. Then the milliseconds.
answer() {
  local yes=$1 no=$2 took said='no answer' TIMEFORMAT=%U
  shift 2
  took=$( { time (ulimit -v 4000000 -t "$seconds"; "$@" >"$folder/answer" 2>&1); } 2>&1 | tail -n 1 | tr -d .)
  if grep -Eq "$yes" "$folder/answer"; then said=true; elif grep -Eq "$no" "$folder/answer"; then said=false; fi
  echo "$said, $((10#$took))"
}

# The answer of one of the three to a question.
asked() {
  local text=$folder/$2
  case $1 in
    fast) answer '^assert [0-9]+ pass' '^assert [0-9]+ fail' "$program" run "$text.fast" ;;
    mona)
      if [ ! -e "$text.mona" ]; then echo -; else
        command -v mona >/dev/null && answer 'Formula is valid' 'unsatisfiable|counter-example' mona -q "$text.mona" || echo 'not here'
      fi
      ;;
    z3)
      if ! command -v z3 >/dev/null; then echo 'not here'
      elif [ -e "$text.smt2" ]; then answer '^unsat' '^sat' z3 -smt2 "$text.smt2"
      elif [ -e "$text.horn" ]; then answer '^sat' '^unsat' z3 -smt2 "$text.horn"
      else echo -; fi
      ;;
  esac
}

differ=0
printf '%-72s%16s%18s%18s\n' '' fast MONA z3
for name in "${statements[@]}"; do
  answers=()
  for peer in fast mona z3; do answers+=("$(asked "$peer" "$name")"); done
  printf '%-72s%16s%18s%18s\n' "${statement[$name]}" "${answers[@]}"
  if [[ "${answers[*]}" == *true,* && "${answers[*]}" == *false,* ]]; then
    echo "not the same answers: $name"
    differ=1
  fi
done
cat <<'T'
MONA can't be asked about numbers and texts: labels are finitely many, so a page has scripts and other tags alone. Nor
about transformations, unless it is worked out by hand which inputs lead to an output of some shape.
z3 decides numbers and texts on one label. About all trees it is asked by Horn clauses over data, and of these it answers some.
T
exit "$differ"
