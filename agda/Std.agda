{-# OPTIONS --safe --without-K #-}
-- What the definitions take from Rattle's std, under the same names: textbook functions, written by
-- hand. With rt, check.sh has Agda prove that each equals std's (SameStd.agda). Compiled code
-- evaluates all arguments of a function, but only one branch of what is INLINE.
module Std where

open import Base public

infix 0 _↔_
infix 4 _≢_
infixr 5 if_then_else_
infixl 30 _||_
infixl 35 _&&_
infix 40 _==_
infixl 65 _++_

private variable
  A B E : Set

_↔_ : Set → Set → Set
P ↔ Q = (P → Q) × (Q → P)
_≢_ : A → A → Set
x ≢ y = ¬ (x ≡ y)

if_then_else_ : Bool → A → A → A
if true then x else y = x
if false then x else y = y
{-# INLINE if_then_else_ #-}
not : Bool → Bool
not false = true
not true = false
_&&_ _||_ : Bool → Bool → Bool
false && b = false
true && b = b
false || b = b
true || b = true
_==_ : ℕ → ℕ → Bool
_==_ = eqb

-- Options and results -----------------------------------------------------------------------------

is-some : Option A → Bool
is-some (Some x) = true
is-some None = false
unwrap-or : Option A → A → A
unwrap-or (Some x) other = x
unwrap-or None other = other
option-or : Option A → Option A → Option A
option-or (Some x) other = Some x
option-or None other = other
option-map-or : (A → B) → Option A → B → B
option-map-or f (Some x) other = f x
option-map-or f None other = other
option-and-then : (A → Option B) → Option A → Option B
option-and-then f (Some x) = f x
option-and-then f None = None
option-map : (A → B) → Option A → Option B
option-map f (Some x) = Some (f x)
option-map f None = None
MatchOption : Option A → Set → (A → Set) → Set
MatchOption (Some x) P Q = Q x
MatchOption None P Q = P
IfSome : Option A → (A → Set) → Set
IfSome o = MatchOption o ⊤
MatchResult : Result A E → (A → Set) → (E → Set) → Set
MatchResult (Ok x) P Q = P x
MatchResult (Err e) P Q = Q e

-- Lists -------------------------------------------------------------------------------------------

_++_ : List A → List A → List A
[] ++ ys = ys
(x ∷ xs) ++ ys = x ∷ (xs ++ ys)
length : List A → ℕ
length [] = 0
length (x ∷ xs) = suc (length xs)
take drop : ℕ → List A → List A
take (suc n) (x ∷ xs) = x ∷ take n xs
take _ _ = []
drop (suc n) (x ∷ xs) = drop n xs
drop _ xs = xs
slice-get : List A → ℕ → Option A
slice-get [] n = None
slice-get (x ∷ xs) zero = Some x
slice-get (x ∷ xs) (suc n) = slice-get xs n
-- the element at this position, or else this one
get-or : List A → ℕ → A → A
get-or [] n other = other
get-or (x ∷ xs) zero other = x
get-or (x ∷ xs) (suc n) other = get-or xs n other
last-or : Option A → List A → Option A
last-or o [] = o
last-or o (x ∷ xs) = last-or (Some x) xs
map : (A → B) → List A → List B
map f [] = []
map f (x ∷ xs) = f x ∷ map f xs
flat-map : (A → List B) → List A → List B
flat-map f [] = []
flat-map f (x ∷ xs) = f x ++ flat-map f xs
filter-map : (A → Option B) → List A → List B
filter-map f [] = []
filter-map f (x ∷ xs) with f x
... | Some y = y ∷ filter-map f xs
... | None = filter-map f xs
filter : (A → Bool) → List A → List A
filter p [] = []
filter p (x ∷ xs) = if p x then x ∷ filter p xs else filter p xs
find : (A → Bool) → List A → Option A
find p [] = None
find p (x ∷ xs) = if p x then Some x else find p xs
-- the first position of an element that passes
position : (A → Bool) → List A → Option ℕ
position p [] = None
position p (x ∷ xs) = if p x then Some 0 else option-map suc (position p xs)
list-any list-all : (A → Bool) → List A → Bool
list-any p [] = false
list-any p (x ∷ xs) = p x || list-any p xs
list-all p [] = true
list-all p (x ∷ xs) = p x && list-all p xs
sum-by : (A → ℕ) → List A → ℕ
sum-by f [] = 0
sum-by f (x ∷ xs) = f x + sum-by f xs
zip : List A → List B → List (A × B)
zip (x ∷ xs) (y ∷ ys) = (x , y) ∷ zip xs ys
zip _ _ = []
repeat : ℕ → List A → List A
repeat zero xs = []
repeat (suc n) xs = xs ++ repeat n xs
join-by : (A → List B) → List B → List A → List B
join-by f between [] = []
join-by f between (x ∷ []) = f x
join-by f between (x ∷ y ∷ xs) = f x ++ (between ++ join-by f between (y ∷ xs))
join-with-byte : ℕ → List (List ℕ) → List ℕ
join-with-byte b = join-by (λ text → text) (b ∷ [])
-- the parts between the elements that pass
slice-split : (A → Bool) → List A → List (List A)
slice-split p [] = [] ∷ []
slice-split p (x ∷ xs) with p x | slice-split p xs
... | false | part ∷ parts = (x ∷ part) ∷ parts
... | false | [] = (x ∷ []) ∷ []
... | true | parts = [] ∷ parts

Any All AllByRecursion : (A → Set) → List A → Set
Any {A} P xs = Σ[ n ∈ ℕ ] Σ[ x ∈ A ] (n < length xs) × (get-or xs n x ≡ x) × P x
All {A} P xs = (n : ℕ) (x : A) → n < length xs → P (get-or xs n x)
AllByRecursion P [] = ⊤
AllByRecursion P (x ∷ xs) = P x × AllByRecursion P xs
Contains : List A → A → Set
Contains xs x = Σ[ n ∈ ℕ ] (n < length xs) × (get-or xs n x ≡ x)
AllZip : (A → B → Set) → List A → List B → Set
AllZip R [] [] = ⊤
AllZip R (x ∷ xs) (y ∷ ys) = R x y × AllZip R xs ys
AllZip R _ _ = ⊥
IsNonDecreasingBy : (A → ℕ) → List A → Set
IsNonDecreasingBy {A} f xs =
  (m n : ℕ) (x : A) → m ≤ n → n < length xs → f (get-or xs m x) ≤ f (get-or xs n x)

-- Texts in UTF-8 ----------------------------------------------------------------------------------

bytes-eq : List ℕ → List ℕ → Bool
bytes-eq [] [] = true
bytes-eq (b ∷ bs) (c ∷ cs) = eqb b c && bytes-eq bs cs
bytes-eq _ _ = false

-- whether a number is a character's, and not a surrogate's
scalar : ℕ → Bool
scalar c = ltb c 55296 || (leb 57344 c && ltb c 1114112)
IsScalar : ℕ → Set
IsScalar c = scalar c ≡ true

-- the bytes of a character, of which all but the first have six bits each
encode : ℕ → List ℕ
encode c =
  if ltb c 128 then c ∷ []
  else if ltb c 2048 then (192 + c / 64) ∷ last c ∷ []
  else if ltb c 65536 then (224 + c / 4096) ∷ last (c / 64) ∷ last c ∷ []
  else (240 + c / 262144) ∷ last (c / 4096) ∷ last (c / 64) ∷ last c ∷ []
  where
    last : ℕ → ℕ
    last bits = 128 + bits % 64
encodes : List ℕ → List ℕ
encodes = flat-map encode
IsUtf8 : List ℕ → Set
IsUtf8 bytes = Σ[ cs ∈ List ℕ ] (list-all scalar cs ≡ true) × (encodes cs ≡ bytes)

-- The characters of bytes. `chars-after` has a character's bits so far, and needs more bytes of it.
chars : List ℕ → List ℕ
chars-after : (more bits : ℕ) → List ℕ → List ℕ
chars [] = []
chars (b ∷ bs) =
  if ltb b 128 then chars-after 0 b bs
  else if ltb b 224 then chars-after 1 (b - 192) bs
  else if ltb b 240 then chars-after 2 (b - 224) bs
  else chars-after 3 (b - 240) bs
chars-after zero c bs = c ∷ chars bs
chars-after (suc n) c [] = []
chars-after (suc n) c (b ∷ bs) = chars-after n (c * 64 + (b - 128)) bs

-- whether Unicode calls a character white space
is-whitespace : ℕ → Bool
is-whitespace c = list-any (λ (first , last) → leb first c && leb c last)
  ((9 , 13) ∷ (32 , 32) ∷ (133 , 133) ∷ (160 , 160) ∷ (5760 , 5760) ∷ (8192 , 8202) ∷ (8232 , 8232)
  ∷ (8233 , 8233) ∷ (8239 , 8239) ∷ (8287 , 8287) ∷ (12288 , 12288) ∷ [])
