{-# OPTIONS --safe --without-K #-}
-- Written by hand, with antt's precedences. These are built into antt, or not defined by clauses.
module Base where

open import Agda.Builtin.Equality public using (_≡_; refl)
open import Agda.Builtin.Bool public using (Bool; true; false)
open import Agda.Builtin.Nat public using (zero; suc) renaming
  (Nat to ℕ; _+_ to infixl 65 _+_; _-_ to infixl 65 _-_; _*_ to infixl 70 _*_; _==_ to eqb;
  _<_ to ltb; div-helper to div; mod-helper to mod)
open import Agda.Builtin.List public using (List; []) renaming (_∷_ to infixr 67 _∷_)
open import Agda.Builtin.Sigma public using (Σ; _,_) renaming (fst to proj₁; snd to proj₂)
open import Agda.Builtin.Unit public using (⊤; tt)

open import Agda.Builtin.String using (String; primStringToList)
open import Agda.Builtin.Char using (Char; primCharToNat)

infixl 70 _/_ _%_
infixr 2 _×_ Σ-syntax
infixr 1 _⊎_
infix 3 ¬_
infix 50 _≤_ _<_

Σ-syntax : (A : Set) → (A → Set) → Set
Σ-syntax = Σ
syntax Σ-syntax A (λ x → B) = Σ[ x ∈ A ] B

_×_ : Set → Set → Set
A × B = Σ A (λ _ → B)

data _⊎_ (A B : Set) : Set where
  inl : A → A ⊎ B
  inr : B → A ⊎ B

data ⊥ : Set where

¬_ : Set → Set
¬ A = A → ⊥

data Option (A : Set) : Set where
  None : Option A
  Some : A → Option A

data Result (A E : Set) : Set where
  Ok : A → Result A E
  Err : E → Result A E

data _≤_ : ℕ → ℕ → Set where
  z≤n : ∀ {n} → zero ≤ n
  s≤s : ∀ {m n} → m ≤ n → suc m ≤ suc n

_<_ : ℕ → ℕ → Set
m < n = suc m ≤ n

leb : ℕ → ℕ → Bool
leb m n = ltb m (suc n)

_/_ _%_ : ℕ → ℕ → ℕ
m / zero = zero
m / suc n = div zero n m n
m % zero = m
m % suc n = mod zero n m n

-- the characters of a literal
codes : String → List ℕ
codes text = numbers (primStringToList text)
  where
    numbers : List Char → List ℕ
    numbers [] = []
    numbers (c ∷ cs) = primCharToNat c ∷ numbers cs
