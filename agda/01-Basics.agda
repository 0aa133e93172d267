{-# OPTIONS --safe --without-K #-}
-- Equality, numbers and lists: what the other files use of them.
module 01-Basics where

open import Std public renaming (AllByRecursion to Each)

-- Equality ----------------------------------------------------------------------------------------

module _ {A : Set} where
  infixr 9 _∙_

  sym : {x y : A} → x ≡ y → y ≡ x
  sym refl = refl
  _∙_ : {x y z : A} → x ≡ y → y ≡ z → x ≡ z
  refl ∙ e = e
  subst : (P : A → Set) {x y : A} → x ≡ y → P x → P y
  subst P refl p = p
  absurd : ⊥ → A
  absurd ()

  -- A value with a property that at most one value has is the only one.
  only-by : {P : A → Set} {v : A} → P v → (∀ x y → P x → P y → x ≡ y) → ∀ x → P x ↔ (x ≡ v)
  only-by p unique x = (λ q → unique x _ q p) , λ { refl → p }

cong : {A B : Set} (f : A → B) {x y : A} → x ≡ y → f x ≡ f y
cong f refl = refl
cong₂ : {A B C : Set} (f : A → B → C) {x y : A} {u v : B} → x ≡ y → u ≡ v → f x u ≡ f y v
cong₂ f refl refl = refl

-- Booleans, options and results -------------------------------------------------------------------

true≢false : {b : Bool} → b ≡ true → b ≡ false → ⊥
true≢false refl ()
not-true : ∀ b → ¬ (b ≡ true) → b ≡ false
not-true true f = absurd (f refl)
not-true false f = refl

or-false : ∀ {a b : Bool} → (a || b) ≡ false → (a ≡ false) × (b ≡ false)
or-false {false} {false} e = refl , refl
and-true : ∀ {a b} → (a && b) ≡ true → (a ≡ true) × (b ≡ true)
and-true {true} e = refl , e
split : ∀ b → (b ≡ true) ⊎ (b ≡ false)
split true = inl refl
split false = inr refl

None≢Some : {A : Set} {o : Option A} {x : A} → o ≡ None → o ≡ Some x → ⊥
None≢Some refl ()
some : {A : Set} {x y : A} → Some x ≡ Some y → x ≡ y
some refl = refl

-- Numbers -----------------------------------------------------------------------------------------

+-zero : ∀ m → m + 0 ≡ m
+-zero zero = refl
+-zero (suc m) = cong suc (+-zero m)
+-suc : ∀ m n → m + suc n ≡ suc (m + n)
+-suc zero n = refl
+-suc (suc m) n = cong suc (+-suc m n)
+-comm : ∀ a b → a + b ≡ b + a
+-comm zero b = sym (+-zero b)
+-comm (suc a) b = cong suc (+-comm a b) ∙ sym (+-suc b a)
+-assoc : ∀ a b c → (a + b) + c ≡ a + (b + c)
+-assoc zero b c = refl
+-assoc (suc a) b c = cong suc (+-assoc a b c)
+-cancel : ∀ k {a b} → k + a ≡ k + b → a ≡ b
+-cancel zero e = e
+-cancel (suc k) e = +-cancel k (cong (_- 1) e)

*-left : ∀ a b c → (a + b) * c ≡ a * c + b * c
*-left zero b c = refl
*-left (suc a) b c = cong (c +_) (*-left a b c) ∙ sym (+-assoc c (a * c) (b * c))
*-assoc : ∀ a b c → (a * b) * c ≡ a * (b * c)
*-assoc zero b c = refl
*-assoc (suc a) b c = *-left b (a * b) c ∙ cong (b * c +_) (*-assoc a b c)

≤-refl : ∀ {a} → a ≤ a
≤-refl {zero} = z≤n
≤-refl {suc a} = s≤s ≤-refl
≤-trans : ∀ {a b c} → a ≤ b → b ≤ c → a ≤ c
≤-trans z≤n q = z≤n
≤-trans (s≤s p) (s≤s q) = s≤s (≤-trans p q)
≤-more : ∀ {a b} c → a ≤ b → a ≤ b + c
≤-more c z≤n = z≤n
≤-more c (s≤s p) = s≤s (≤-more c p)
≤-after : ∀ {a b} c → a ≤ b → a ≤ c + b
≤-after {a} {b} c p = subst (a ≤_) (+-comm b c) (≤-more c p)
≤-both : ∀ {a b c d} → a ≤ b → c ≤ d → a + c ≤ b + d
≤-both {b = b} z≤n q = ≤-after b q
≤-both (s≤s p) q = s≤s (≤-both p q)
≤-cancel : ∀ k {a b} → k + a ≤ k + b → a ≤ b
≤-cancel zero p = p
≤-cancel (suc k) (s≤s p) = ≤-cancel k p
not-less : ∀ {n} → n < n → ⊥
not-less (s≤s p) = not-less p

<→ltb : ∀ {m n} → m < n → ltb m n ≡ true
<→ltb {zero} (s≤s z≤n) = refl
<→ltb {suc m} (s≤s (s≤s p)) = <→ltb {m} (s≤s p)
ltb→< : ∀ m n → ltb m n ≡ true → m < n
ltb→< zero (suc n) e = s≤s z≤n
ltb→< (suc m) (suc n) e = s≤s (ltb→< m n e)
leb→≤ : ∀ m n → leb m n ≡ true → m ≤ n
leb→≤ m n e with ltb→< m (suc n) e
... | s≤s p = p
>→leb : ∀ {m n} → n < m → leb m n ≡ false
>→leb {m} {n} p = not-true _ (λ e → not-less (≤-trans p (leb→≤ m n e)))
eqb→≡ : ∀ m n → eqb m n ≡ true → m ≡ n
eqb→≡ zero zero e = refl
eqb→≡ (suc m) (suc n) e = cong suc (eqb→≡ m n e)
eqb-refl : ∀ n → eqb n n ≡ true
eqb-refl zero = refl
eqb-refl (suc n) = eqb-refl n

-- Lists -------------------------------------------------------------------------------------------

module _ {A : Set} where

  cons-head : {x y : A} {xs ys : List A} → x ∷ xs ≡ y ∷ ys → x ≡ y
  cons-head refl = refl
  cons-tail : {x y : A} {xs ys : List A} → x ∷ xs ≡ y ∷ ys → xs ≡ ys
  cons-tail refl = refl

  ++-assoc : (xs ys zs : List A) → (xs ++ ys) ++ zs ≡ xs ++ (ys ++ zs)
  ++-assoc [] ys zs = refl
  ++-assoc (x ∷ xs) ys zs = cong (x ∷_) (++-assoc xs ys zs)
  ++-nil : (xs : List A) → xs ++ [] ≡ xs
  ++-nil [] = refl
  ++-nil (x ∷ xs) = cong (x ∷_) (++-nil xs)
  ++-filled : (xs : List A) {y : A} {ys : List A} → xs ++ y ∷ ys ≢ []
  ++-filled [] ()
  ++-filled (x ∷ xs) ()
  filled-left : (xs : List A) {ys : List A} → xs ≢ [] → xs ++ ys ≢ []
  filled-left [] f e = f refl
  filled-left (x ∷ xs) f ()

  length-++ : (xs ys : List A) → length (xs ++ ys) ≡ length xs + length ys
  length-++ [] ys = refl
  length-++ (x ∷ xs) ys = cong suc (length-++ xs ys)
  drop-all : (xs ys : List A) → drop (length xs) (xs ++ ys) ≡ ys
  drop-all [] ys = refl
  drop-all (x ∷ xs) ys = drop-all xs ys
  get-all : (xs : List A) (y : A) (ys : List A) → slice-get (xs ++ y ∷ ys) (length xs) ≡ Some y
  get-all [] y ys = refl
  get-all (x ∷ xs) y ys = get-all xs y ys

  contains-++ : ∀ xs ys (x : A) → Contains (xs ++ ys) x → Contains xs x ⊎ Contains ys x
  contains-++ [] ys x c = inr c
  contains-++ (y ∷ xs) ys x (zero , s≤s p , e) = inl (zero , s≤s z≤n , e)
  contains-++ (y ∷ xs) ys x (suc k , s≤s p , e) with contains-++ xs ys x (k , p , e)
  ... | inl (k′ , p′ , e′) = inl (suc k′ , s≤s p′ , e′)
  ... | inr c = inr c

  -- One list is cut twice. The first cut is no later than the second, or it is later.
  cuts : (xs ys us vs : List A) → xs ++ ys ≡ us ++ vs
    → (Σ[ zs ∈ List A ] (us ≡ xs ++ zs) × (ys ≡ zs ++ vs))
    ⊎ (Σ[ z ∈ A ] Σ[ zs ∈ List A ] (xs ≡ us ++ z ∷ zs) × (vs ≡ z ∷ zs ++ ys))
  cuts [] ys us vs e = inl (us , refl , e)
  cuts (x ∷ xs) ys [] vs e = inr (x , xs , refl , sym e)
  cuts (x ∷ xs) ys (u ∷ us) vs e with cons-head e | cuts xs ys us vs (cons-tail e)
  ... | refl | inl (zs , p , q) = inl (zs , cong (x ∷_) p , q)
  ... | refl | inr (z , zs , p , q) = inr (z , zs , cong (x ∷_) p , q)

  each-++ : {P : A → Set} (xs : List A) {ys : List A} → Each P xs → Each P ys → Each P (xs ++ ys)
  each-++ [] _ q = q
  each-++ (x ∷ xs) (p , ps) q = p , each-++ xs ps q
  each-parts : ∀ {P : A → Set} xs {ys} → Each P (xs ++ ys) → Each P xs × Each P ys
  each-parts [] q = tt , q
  each-parts (x ∷ xs) (p , ps) = (p , proj₁ (each-parts xs ps)) , proj₂ (each-parts xs ps)
  each-map : {P Q : A → Set} → (∀ x → P x → Q x) → ∀ xs → Each P xs → Each Q xs
  each-map f [] _ = tt
  each-map f (x ∷ xs) (p , ps) = f x p , each-map f xs ps
  each-and : {P Q : A → Set} (xs : List A) → Each P xs → Each Q xs → Each (λ x → P x × Q x) xs
  each-and [] _ _ = tt
  each-and (x ∷ xs) (p , ps) (q , qs) = (p , q) , each-and xs ps qs
  each-at : ∀ {P : A → Set} xs {x} → Each P xs → Contains xs x → P x
  each-at {P} (y ∷ xs) (p , ps) (zero , _ , e) = subst P e p
  each-at (y ∷ xs) (p , ps) (suc k , s≤s b , e) = each-at xs ps (k , b , e)

module _ {A B : Set} (f : A → B) where

  map-++ : (xs ys : List A) → map f (xs ++ ys) ≡ map f xs ++ map f ys
  map-++ [] ys = refl
  map-++ (x ∷ xs) ys = cong (f x ∷_) (map-++ xs ys)
  length-map : (xs : List A) → length (map f xs) ≡ length xs
  length-map [] = refl
  length-map (x ∷ xs) = cong suc (length-map xs)

  each-mapped : {P : A → Set} {Q : B → Set} → (∀ x → P x → Q (f x))
    → ∀ xs → Each P xs → Each Q (map f xs)
  each-mapped h [] _ = tt
  each-mapped h (x ∷ xs) (p , ps) = h x p , each-mapped h xs ps

  map-get : ∀ xs k {x} → slice-get xs k ≡ Some x → slice-get (map f xs) k ≡ Some (f x)
  map-get (x ∷ xs) zero refl = refl
  map-get (x ∷ xs) (suc k) e = map-get xs k e
  get-map : ∀ xs k {y} → slice-get (map f xs) k ≡ Some y → Σ[ x ∈ A ] slice-get xs k ≡ Some x
  get-map (x ∷ xs) zero e = x , refl
  get-map (x ∷ xs) (suc k) e = get-map xs k e

module _ {A B : Set} (f : A → List B) where

  flat-map-++ : (xs ys : List A) → flat-map f (xs ++ ys) ≡ flat-map f xs ++ flat-map f ys
  flat-map-++ [] ys = refl
  flat-map-++ (x ∷ xs) ys = cong (f x ++_) (flat-map-++ xs ys) ∙ sym (++-assoc (f x) _ _)

  each-flat : {P : A → Set} {Q : B → Set} → (∀ x → P x → Each Q (f x))
    → ∀ xs → Each P xs → Each Q (flat-map f xs)
  each-flat h [] _ = tt
  each-flat h (x ∷ xs) (p , ps) = each-++ (f x) (h x p) (each-flat h xs ps)
