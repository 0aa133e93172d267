{-# OPTIONS --safe --without-K #-}
-- The functions of Std.agda equal those of Rattle's std, and its statements are equivalent to those
-- of std, all of which translate.py writes to gen/Rattle.agda.
module SameStd where

open import 01-Basics hiding (Each)
open import Std using (AllByRecursion)
import Rattle as R

private variable
  A B E : Set

↔-is : (P Q : Set) → (P ↔ Q) ≡ R._↔_ P Q
↔-is P Q = refl
≢-is : (x y : A) → (x ≢ y) ≡ R._≢_ x y
≢-is x y = refl

if-is : ∀ b (x y : A) → (if b then x else y) ≡ R.if_then_else_ b x y
if-is false x y = refl
if-is true x y = refl
not-is : ∀ b → not b ≡ R.not b
not-is false = refl
not-is true = refl
and-is : ∀ a b → (a && b) ≡ R._&&_ a b
and-is false b = refl
and-is true b = refl
or-is : ∀ a b → (a || b) ≡ R._||_ a b
or-is false b = refl
or-is true b = refl
==-is : ∀ m n → (m == n) ≡ R._==_ m n
==-is m n = refl

-- Options and results -----------------------------------------------------------------------------

is-some-is : (o : Option A) → is-some o ≡ R.is-some o
is-some-is None = refl
is-some-is (Some x) = refl
unwrap-or-is : ∀ o (x : A) → unwrap-or o x ≡ R.unwrap-or o x
unwrap-or-is None x = refl
unwrap-or-is (Some y) x = refl
option-or-is : (o p : Option A) → option-or o p ≡ R.option-or o p
option-or-is None p = refl
option-or-is (Some x) p = refl
module _ (f : A → B) where
  option-map-or-is : ∀ o y → option-map-or f o y ≡ R.option-map-or f o y
  option-map-or-is None y = refl
  option-map-or-is (Some x) y = refl
  option-map-is : ∀ o → option-map f o ≡ R.option-map f o
  option-map-is None = refl
  option-map-is (Some x) = refl
option-and-then-is : ∀ (f : A → Option B) o → option-and-then f o ≡ R.option-and-then f o
option-and-then-is f None = refl
option-and-then-is f (Some x) = refl
MatchOption-is : ∀ (o : Option A) P Q → MatchOption o P Q ≡ R.MatchOption o P Q
MatchOption-is None P Q = refl
MatchOption-is (Some x) P Q = refl
IfSome-is : ∀ (o : Option A) P → IfSome o P ≡ R.IfSome o P
IfSome-is None P = refl
IfSome-is (Some x) P = refl
MatchResult-is : ∀ (r : Result A E) P Q → MatchResult r P Q ≡ R.MatchResult r P Q
MatchResult-is (Ok x) P Q = refl
MatchResult-is (Err e) P Q = refl

-- Lists -------------------------------------------------------------------------------------------

++-is : (xs ys : List A) → (xs ++ ys) ≡ R._++_ xs ys
++-is [] ys = refl
++-is (x ∷ xs) ys = cong (x ∷_) (++-is xs ys)
length-is : (xs : List A) → length xs ≡ R.length xs
length-is [] = refl
length-is (x ∷ xs) = cong suc (length-is xs)
take-is : ∀ n (xs : List A) → take n xs ≡ R.take n xs
take-is zero xs = refl
take-is (suc n) [] = refl
take-is (suc n) (x ∷ xs) = cong (x ∷_) (take-is n xs)
drop-is : ∀ n (xs : List A) → drop n xs ≡ R.drop n xs
drop-is zero xs = refl
drop-is (suc n) [] = refl
drop-is (suc n) (x ∷ xs) = drop-is n xs
slice-get-is : ∀ (xs : List A) n → slice-get xs n ≡ R.slice-get xs n
slice-get-is [] n = refl
slice-get-is (x ∷ xs) zero = refl
slice-get-is (x ∷ xs) (suc n) = slice-get-is xs n
get-or-is : ∀ xs n (x : A) → get-or xs n x ≡ R.get-or xs n x
get-or-is [] n x = refl
get-or-is (y ∷ xs) zero x = refl
get-or-is (y ∷ xs) (suc n) x = get-or-is xs n x
last-or-is : ∀ o (xs : List A) → last-or o xs ≡ R.last-or o xs
last-or-is o [] = refl
last-or-is o (x ∷ xs) = last-or-is (Some x) xs
map-is : ∀ (f : A → B) xs → map f xs ≡ R.map f xs
map-is f [] = refl
map-is f (x ∷ xs) = cong (f x ∷_) (map-is f xs)
flat-map-is : ∀ (f : A → List B) xs → flat-map f xs ≡ R.flat-map f xs
flat-map-is f [] = refl
flat-map-is f (x ∷ xs) = cong (f x ++_) (flat-map-is f xs) ∙ ++-is (f x) _
filter-map-is : ∀ (f : A → Option B) xs → filter-map f xs ≡ R.filter-map f xs
filter-map-is f [] = refl
filter-map-is f (x ∷ xs) with f x
... | None = filter-map-is f xs
... | Some y = cong (y ∷_) (filter-map-is f xs)

module _ (p : A → Bool) where
  filter-is : ∀ xs → filter p xs ≡ R.filter p xs
  filter-is [] = refl
  filter-is (x ∷ xs) with p x
  ... | false = filter-is xs
  ... | true = cong (x ∷_) (filter-is xs)
  find-is : ∀ xs → find p xs ≡ R.find p xs
  find-is [] = refl
  find-is (x ∷ xs) with p x
  ... | false = find-is xs
  ... | true = refl
  position-is : ∀ xs → position p xs ≡ R.position p xs
  position-is [] = refl
  position-is (x ∷ xs) with p x
  ... | true = refl
  ... | false = cong (option-map suc) (position-is xs)
      ∙ later (ltb (R.position-or-len p xs) (R.length xs))
    where
      later : ∀ b {n} → option-map suc (R.cond b (Some n) None) ≡ R.cond b (Some (suc n)) None
      later false = refl
      later true = refl
  list-any-is : ∀ xs → list-any p xs ≡ R.list-any p xs
  list-any-is [] = refl
  list-any-is (x ∷ xs) = cong (p x ||_) (list-any-is xs) ∙ or-is (p x) _
  list-all-is : ∀ xs → list-all p xs ≡ R.list-all p xs
  list-all-is [] = refl
  list-all-is (x ∷ xs) = cong (p x &&_) (list-all-is xs) ∙ and-is (p x) _
  slice-split-is : ∀ xs → slice-split p xs ≡ R.slice-split p xs
  slice-split-is [] = refl
  slice-split-is (x ∷ xs) with p x | slice-split p xs | slice-split-is xs
  ... | true | parts | e = cong ([] ∷_) e
  ... | false | [] | e rewrite sym e = refl
  ... | false | part ∷ parts | e rewrite sym e = refl

sum-by-is : ∀ (f : A → ℕ) xs → sum-by f xs ≡ R.sum-by f xs
sum-by-is f = from 0
  where
    from : ∀ n xs → n + sum-by f xs ≡ R.fold (λ n x → n + f x) n xs
    from n [] = +-zero n
    from n (x ∷ xs) = sym (+-assoc n (f x) _) ∙ from (n + f x) xs
zip-is : ∀ (xs : List A) (ys : List B) → zip xs ys ≡ R.zip xs ys
zip-is [] ys = refl
zip-is (x ∷ xs) [] = refl
zip-is (x ∷ xs) (y ∷ ys) = cong ((x , y) ∷_) (zip-is xs ys)
repeat-is : ∀ n (xs : List A) → repeat n xs ≡ R.repeat n xs
repeat-is zero xs = refl
repeat-is (suc n) xs = cong (xs ++_) (repeat-is n xs) ∙ ++-is xs _
join-by-is : ∀ (f : A → List B) between xs → join-by f between xs ≡ R.join-by f between xs
join-by-is f bs [] = refl
join-by-is f bs (x ∷ []) = sym (++-nil (f x)) ∙ ++-is (f x) []
join-by-is f bs (x ∷ y ∷ xs) = cong (f x ++_)
  (cong (bs ++_) (join-by-is f bs (y ∷ xs) ∙ sym (++-is (f y) _)) ∙ sym (++-assoc bs (f y) _)
    ∙ cong (_++ _) (++-is bs (f y)) ∙ ++-is (R._++_ bs (f y)) _) ∙ ++-is (f x) _
join-with-byte-is : ∀ b xs → join-with-byte b xs ≡ R.join-with-byte b xs
join-with-byte-is b [] = refl
join-with-byte-is b (x ∷ []) = refl
join-with-byte-is b (x ∷ y ∷ xs) =
  cong (λ text → x ++ (b ∷ text)) (join-with-byte-is b (y ∷ xs)) ∙ ++-is x _

Any-is : ∀ (P : A → Set) xs → Any P xs ↔ R.Any P xs
Any-is P xs = (λ (n , x , below , is , p) →
    n , x , subst (n <_) (length-is xs) below , sym (get-or-is xs n x) ∙ is , p) ,
  (λ (n , x , below , is , p) →
    n , x , subst (n <_) (sym (length-is xs)) below , get-or-is xs n x ∙ is , p)
Contains-is : ∀ xs (x : A) → Contains xs x ↔ R.Contains xs x
Contains-is xs x =
  (λ (n , below , is) → n , subst (n <_) (length-is xs) below , sym (get-or-is xs n x) ∙ is) ,
  (λ (n , below , is) → n , subst (n <_) (sym (length-is xs)) below , get-or-is xs n x ∙ is)
All-is : ∀ (P : A → Set) xs → All P xs ↔ R.All P xs
All-is P xs = (λ all n x below →
    subst P (get-or-is xs n x) (all n x (subst (n <_) (sym (length-is xs)) below))) ,
  (λ all n x below → subst P (sym (get-or-is xs n x)) (all n x (subst (n <_) (length-is xs) below)))
AllByRecursion-is : ∀ (P : A → Set) xs → AllByRecursion P xs ↔ R.AllByRecursion P xs
AllByRecursion-is P [] = (λ _ → tt) , (λ _ → tt)
AllByRecursion-is P (x ∷ xs) with AllByRecursion-is P xs
... | to , from = (λ (p , ps) → p , to ps) , (λ (p , ps) → p , from ps)
AllZip-is : ∀ (P : A → B → Set) xs ys → AllZip P xs ys ↔ R.AllZip P xs ys
AllZip-is P [] [] = (λ _ → tt) , (λ _ → tt)
AllZip-is P [] (y ∷ ys) = (λ ()) , (λ ())
AllZip-is P (x ∷ xs) [] = (λ ()) , (λ ())
AllZip-is P (x ∷ xs) (y ∷ ys) with AllZip-is P xs ys
... | to , from = (λ (p , ps) → p , to ps) , (λ (p , ps) → p , from ps)
IsNonDecreasingBy-is : ∀ (f : A → ℕ) xs → IsNonDecreasingBy f xs ↔ R.IsNonDecreasingBy f xs
IsNonDecreasingBy-is f xs =
  (λ rises m n x p below → subst (λ y → f y ≤ _) (get-or-is xs m x) (subst (λ y → _ ≤ f y)
    (get-or-is xs n x) (rises m n x p (subst (n <_) (sym (length-is xs)) below)))) ,
  (λ rises m n x p below → subst (λ y → f y ≤ _) (sym (get-or-is xs m x)) (subst (λ y → _ ≤ f y)
    (sym (get-or-is xs n x)) (rises m n x p (subst (n <_) (length-is xs) below))))

-- Texts in UTF-8 ----------------------------------------------------------------------------------

bytes-eq-is : ∀ bs cs → bytes-eq bs cs ≡ R.bytes-eq bs cs
bytes-eq-is [] [] = refl
bytes-eq-is [] (c ∷ cs) = refl
bytes-eq-is (b ∷ bs) [] = refl
bytes-eq-is (b ∷ bs) (c ∷ cs) = cong (eqb b c &&_) (bytes-eq-is bs cs) ∙ and-is (eqb b c) _
scalar-is : ∀ c → scalar c ≡ R.scalar c
scalar-is c with ltb c 55296
... | false = and-is (leb 57344 c) _
... | true = refl
IsScalar-is : ∀ c → IsScalar c ↔ R.IsScalar c
IsScalar-is c = (sym (scalar-is c) ∙_) , (scalar-is c ∙_)
encode-is : ∀ c → encode c ≡ R.encode c
encode-is c with ltb c 128 | ltb c 2048 | ltb c 65536
... | true | _ | _ = refl
... | false | true | _ = refl
... | false | false | true = refl
... | false | false | false = refl
encodes-is : ∀ cs → encodes cs ≡ R.encodes cs
encodes-is [] = refl
encodes-is (c ∷ cs) = cong (encode c ++_) (encodes-is cs) ∙ cong (_++ R.encodes cs) (encode-is c)
  ∙ ++-is (R.encode c) _
IsUtf8-is : ∀ bs → IsUtf8 bs ↔ R.IsUtf8 bs
IsUtf8-is bs =
  (λ (cs , valid , are) → cs , sym (scalars-are cs) ∙ valid , sym (encodes-is cs) ∙ are) ,
  (λ (cs , valid , are) → cs , scalars-are cs ∙ valid , encodes-is cs ∙ are)
  where
    scalars-are : ∀ cs → list-all scalar cs ≡ R.scalars cs
    scalars-are [] = refl
    scalars-are (c ∷ cs) = cong (scalar c &&_) (scalars-are cs)
      ∙ cong (_&& R.scalars cs) (scalar-is c) ∙ and-is (R.scalar c) _
chars-is : ∀ bs → chars bs ≡ R.chars bs
chars-after-is : ∀ n c bs → chars-after n c bs ≡ R.chars-after n c bs
chars-is [] = refl
chars-is (b ∷ bs) with ltb b 128 | ltb b 224 | ltb b 240
... | true | _ | _ = chars-after-is 0 b bs
... | false | true | _ = chars-after-is 1 _ bs
... | false | false | true = chars-after-is 2 _ bs
... | false | false | false = chars-after-is 3 _ bs
chars-after-is zero c [] = refl
chars-after-is zero c (b ∷ bs) = cong (c ∷_) (chars-is (b ∷ bs))
chars-after-is (suc n) c [] = refl
chars-after-is (suc n) c (b ∷ bs) = chars-after-is n _ bs

-- A range of one character contains only it. `either` has the parentheses of std's definition.
only : ∀ n c → (leb n c && leb c n) ≡ eqb c n
only zero zero = refl
only zero (suc c) = refl
only (suc n) zero = refl
only (suc n) (suc c) = only n c
either : Bool → List Bool → Bool
either a [] = a
either a (b ∷ bs) = either (R._||_ a b) bs
either-is : ∀ a bs → (a || list-any (λ b → b) bs) ≡ either a bs
either-is false [] = refl
either-is false (b ∷ bs) = either-is b bs
either-is true [] = refl
either-is true (b ∷ bs) = either-is true bs
is-whitespace-is : ∀ c → is-whitespace c ≡ R.is-whitespace c
is-whitespace-is c
  rewrite and-is (leb 9 c) (leb c 13) | only 32 c | only 133 c | only 160 c | only 5760 c
  | and-is (leb 8192 c) (leb c 8202) | only 8232 c | only 8233 c | only 8239 c | only 8287 c
  | only 12288 c = either-is (R._&&_ (leb 9 c) (leb c 13)) (eqb c 32 ∷ eqb c 133 ∷ eqb c 160
    ∷ eqb c 5760 ∷ R._&&_ (leb 8192 c) (leb c 8202) ∷ eqb c 8232 ∷ eqb c 8233 ∷ eqb c 8239
    ∷ eqb c 8287 ∷ eqb c 12288 ∷ [])
