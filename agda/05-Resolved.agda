{-# OPTIONS --safe --without-K #-}
-- How names resolve, and that options that may be declared have a sane grammar.
module 05-Resolved where

open import Definitions
open import 01-Basics
open import 02-Characters
open import 03-Reads

bytes-equal : ∀ a b → bytes-eq a b ≡ true → a ≡ b
bytes-equal [] [] e = refl
bytes-equal (x ∷ a) (y ∷ b) e with and-true {eqb x y} e
... | p , q rewrite eqb→≡ x y p | bytes-equal a b q = refl

-- `position` and `find` find an element that passes.
position-some : ∀ {A : Set} (p : A → Bool) xs k → position p xs ≡ Some k
  → Σ[ x ∈ A ] (slice-get xs k ≡ Some x) × (p x ≡ true)
position-some p (x ∷ xs) k e with p x in is | position p xs in found
position-some p (x ∷ xs) k refl | true | _ = x , refl , is
position-some p (x ∷ xs) k refl | false | Some j = position-some p xs j found

find-some : ∀ {A : Set} (p : A → Bool) xs {x} → find p xs ≡ Some x
  → Contains xs x × (p x ≡ true)
find-some p (y ∷ xs) e with p y in is
find-some p (y ∷ xs) refl | true = (0 , s≤s z≤n , refl) , is
... | false with find-some p xs e
...   | (k , below , at) , passes = (suc k , s≤s below , at) , passes

got : ∀ {A : Set} xs k {x : A} → slice-get xs k ≡ Some x → Contains xs x
got (x ∷ xs) zero refl = 0 , s≤s z≤n , refl
got (x ∷ xs) (suc k) e with got xs k e
... | j , below , at = suc j , s≤s below , at

-- The group has this name: as its main name, or as its alias.
data Bears (n : Text) (x : Names) : Set where
  as-main : main-name x ≡ n → Bears n x
  as-alias : x .$short ≡ n → x .$short ≢ [] → Bears n x

alias : ∀ n x → is-alias n x ≡ true → Bears n x
alias n x@(mk s l) e with and-true {not (is-empty l) && not (is-empty s)} e
... | both , same with and-true {not (is-empty l)} both
...   | _ , filled = as-alias (bytes-equal s n same) λ { refl → true≢false filled refl }

-- Some group has a name that resolves.
bearer : ∀ ns n p → resolution ns n ≡ Some p → Σ[ x ∈ Names ] Contains ns x × Bears n x
bearer ns n p e with main-place ns n in m | find (is-alias n) ns in f
... | Some k | _ with position-some (is-main n) ns k m
...   | x , at , is = x , got ns k at , as-main (bytes-equal _ n is)
bearer ns n p e | None | Some x with find-some (is-alias n) ns f
... | inside , is = x , inside , alias n x is

main-found : ∀ ns n k x → main-place ns n ≡ Some k → slice-get ns k ≡ Some x → main-name x ≡ n
main-found ns n k x e at with position-some (is-main n) ns k e
... | y , at-y , is = cong main-name (some (sym at ∙ at-y)) ∙ bytes-equal (main-name y) n is

-- What the main theorem needs of a group: it has a name, and no name is one byte of a longer
-- character.
IsNamed : Names → Set
IsNamed x = (main-name x ≢ []) × (∀ b → IsHigh b → (x .$short ≢ b ∷ []) × (x .$long ≢ b ∷ []))

module _ (ns : List Names) (named : Each IsNamed ns) where

  empty-resolves-not : EmptyResolvesNot ns
  empty-resolves-not with resolution ns [] in e
  ... | None = refl
  ... | Some p with bearer ns [] p e
  ...   | x , inside , as-main is = absurd (each-at ns named inside .proj₁ is)
  ...   | x , inside , as-alias is filled = absurd (filled is)

  high-resolves-not : ∀ b → IsHigh b → resolution ns (b ∷ []) ≡ None
  high-resolves-not b high with resolution ns (b ∷ []) in e
  ... | None = refl
  ... | Some p with bearer ns (b ∷ []) p e
  ...   | x , inside , as-alias is _ = absurd (each-at ns named inside .proj₂ b high .proj₁ is)
  ...   | mk s [] , inside , as-main is = absurd (each-at ns named inside .proj₂ b high .proj₁ is)
  ...   | mk s (c ∷ l) , inside , as-main is =
          absurd (each-at ns named inside .proj₂ b high .proj₂ is)

-- The grammar is sane: no group has an empty name, or a name that is part of a character.
sane-groups : ∀ options → Each IsNamed (names-of (options .$groups)) → Sane (grammar-of options)
sane-groups options named = record
  { no-empty = kind-none (empty-resolves-not (names-of gs) named)
  ; no-high = λ b high → kind-none (high-resolves-not (names-of gs) named b high) }
  where
    gs = options .$groups
    kind-none : ∀ {n} → resolution (names-of gs) n ≡ None → kind-of gs n ≡ None
    kind-none e rewrite e = refl

-- Names that may be declared ----------------------------------------------------------------------

IsValid : Names → Set
IsValid x = AreLawful (x .$short) (x .$long) × IsUtf8 (x .$short)

valid-groups : ∀ groups → MayBeDeclared groups → Each IsValid (names-of groups)
valid-groups [] _ = tt
valid-groups (g ∷ gs) (mk (l , ls) (u , us)) = (l , u) , valid-groups gs (mk ls us)

no-half : ∀ b → IsHigh b → ¬ (IsUtf8 (b ∷ []))
no-half b high u with begins b [] u
... | ascii low _ = true≢false low high
... | beyond c more _ _ several is = go (encode c) several is
  where
    go : ∀ xs → 1 < length xs → b ∷ [] ≢ xs ++ more
    go (x ∷ []) (s≤s ()) e
    go (x ∷ y ∷ xs) p ()

is-named : ∀ x → IsValid x → IsNamed x
is-named (mk s l) (mk _ long-fits filled , u) =
  named l filled , λ b high → (λ { refl → no-half b high u }) , λ { refl → long-fits refl }
  where
    named : ∀ l → 0 < length s + length l → main-name (mk s l) ≢ []
    named (c ∷ l) _ ()
    named [] p refl = not-less p

-- The main name of a resolved group resolves to it, whether or not names are valid.
main-name-resolves : ∀ ns → MainNameResolves ns
main-name-resolves ns n k x e at with main-place ns n in m | find (is-alias n) ns
main-name-resolves ns n k x refl at | Some k | _ rewrite main-found ns n k x m at | m = refl
main-name-resolves ns n k x e at | None | Some y
  rewrite main-found ns (main-name y) k x e at | e = refl

-- A name of one byte that resolves is a short name, and no long one.
one-byte-is-short : ∀ ns → Each IsValid ns → OneByteIsShort ns
one-byte-is-short ns valid byte place e with bearer ns (byte ∷ []) place e
... | x , inside@(k , below , at) , bears =
  (k , x , below , at , short x (each-at ns valid inside) bears)
  , each-map (λ { y (lawful , _) refl → lawful .$long-fits refl }) ns valid
  where
    short : ∀ x → IsValid x → Bears (byte ∷ []) x → x .$short ≡ byte ∷ []
    short x _ (as-alias is _) = is
    short (mk s []) _ (as-main is) = is
    short (mk s (c ∷ l)) (mk _ long-fits _ , _) (as-main is) = absurd (long-fits (cong length is))

-- Groups in matches have the names of the options' groups if their signatures are the same.
held-are : ∀ groups {gs} → map (λ m → m .$signature) groups ≡ signatures-of gs
  → held-names groups ≡ names-of gs
held-are [] {[]} e = refl
held-are (m ∷ ms) {g ∷ gs} e =
  cong₂ _∷_ (cong (λ s → s .$names) (cons-head e)) (held-are ms (cons-tail e))
