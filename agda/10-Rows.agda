{-# OPTIONS --safe --without-K #-}
-- Rows of descriptions and usage texts, for any function in the place of the widths of
-- `unicode_width`: a line has exactly one tight breaking, and no fitting breaking has fewer runs.
import Base
module 10-Rows (str-width : Base.Bool → Base.List Base.ℕ → Base.ℕ) where

open import Definitions
open import 01-Basics
open import Columns str-width

-- Lists of lists ----------------------------------------------------------------------------------

-- `All` is defined by indices, but the proofs use recursion.
each : {A : Set} (P : A → Set) (xs : List A) → All P xs → Each P xs
each P [] _ = tt
each P (x ∷ xs) all = all 0 x (s≤s z≤n) , each P xs λ k d l → all (suc k) d (s≤s l)

all-of : {A : Set} (P : A → Set) (xs : List A) → Each P xs → All P xs
all-of P (x ∷ xs) (p , ps) zero d _ = p
all-of P (x ∷ xs) (p , ps) (suc k) d (s≤s l) = all-of P xs ps k d l

module _ {A B : Set} {R : A → B → Set} where

  zip-map : (f : A → B) → (∀ x → R x (f x)) → ∀ xs → AllZip R xs (map f xs)
  zip-map f r [] = tt
  zip-map f r (x ∷ xs) = r x , zip-map f r xs

  zip-unique : (∀ x → AtMostOne (R x)) → ∀ xs → AtMostOne (AllZip R xs)
  zip-unique u [] [] [] _ _ = refl
  zip-unique u (x ∷ xs) (y ∷ ys) (y′ ∷ ys′) (r , rs) (r′ , rs′) =
    cong₂ _∷_ (u x y y′ r r′) (zip-unique u xs ys ys′ rs rs′)

  zip-weaken : {S : A → B → Set} → (∀ x y → R x y → S x y)
    → ∀ xs ys → AllZip R xs ys → AllZip S xs ys
  zip-weaken f [] [] _ = tt
  zip-weaken f (x ∷ xs) (y ∷ ys) (r , rs) = f x y r , zip-weaken f xs ys rs

-- Runs --------------------------------------------------------------------------------------------

module _ {A : Set} (f : A → ℕ) where

  sum-++ : ∀ xs ys → sum-by f (xs ++ ys) ≡ sum-by f xs + sum-by f ys
  sum-++ [] ys = refl
  sum-++ (x ∷ xs) ys = cong (f x +_) (sum-++ xs ys) ∙ sym (+-assoc (f x) _ _)

≤-less-one : ∀ {a b} → a ≤ b → a - 1 ≤ b - 1
≤-less-one z≤n = z≤n
≤-less-one (s≤s p) = p

-- A run within a run has no more columns.
columns-inside : ∀ front run back → columns-of run ≤ columns-of (front ++ (run ++ back))
columns-inside front run back
  rewrite sum-++ width-of front (run ++ back) | sum-++ width-of run back
  | length-++ front (run ++ back) | length-++ run back =
  ≤-both {sum-by width-of run} (≤-after (sum-by width-of front) (≤-more _ ≤-refl))
    (≤-less-one {length run} (≤-after (length front) (≤-more _ ≤-refl)))

-- Words that fit together with others fit by themselves.
fits-inside : ∀ limit front word run back → FitsIn limit (front ++ ((word ∷ run) ++ back))
  → FitsIn limit (word ∷ run)
fits-inside limit front word run back (inr few) =
  inr (≤-trans (columns-inside front (word ∷ run) back) few)
fits-inside limit [] word [] back (inl _) = inl refl
fits-inside limit (x ∷ []) word run back (inl ())
fits-inside limit (x ∷ y ∷ front) word run back (inl ())

words-in : List Run → List Text
words-in runs = flat-map (λ run → run) runs

-- A fitting breaking, stated by recursion.
Filled : Run → Set
Filled run = 0 < length run

Breaks : ℕ → List Run → Set
Breaks limit runs = Each Filled runs × Each (FitsIn limit) runs

breaks-of : ∀ {limit words runs} → IsFittingBreaking limit words runs → Breaks limit runs
breaks-of {runs = runs} p = each Filled runs (p .$nonempty) , each _ runs (p .$fits)

-- If no run takes more, no fitting run contains the first one and the word after it.
takes-no-more : ∀ limit front run runs word back {more} → NoneTakesMore limit (run ∷ runs)
  → Each Filled (run ∷ runs) → words-in runs ≡ word ∷ more
  → ¬ (FitsIn limit (front ++ (run ++ word ∷ back)))
takes-no-more limit front run ([] ∷ runs) word back tight (_ , () , _) e fits
takes-no-more limit front (x ∷ run) ((.word ∷ next) ∷ runs) word back (full , _) _ refl fits =
  full (fits-inside limit front x (run ++ word ∷ []) back
    (subst (λ w → FitsIn limit (front ++ x ∷ w)) (sym (++-assoc run (word ∷ []) back)) fits))

later : ∀ {limit run} runs → NoneTakesMore limit (run ∷ runs) → NoneTakesMore limit runs
later [] _ = tt
later (next ∷ runs) (_ , tight) = tight

-- Two breakings of the same words are compared run by run. The first run of any fitting one ends no
-- later than the first tight run, even if it begins earlier: otherwise it would contain that run
-- and the next word, which don't fit together. So no fitting breaking has fewer runs.
no-fewer : ∀ limit front runs others → NoneTakesMore limit runs → Each Filled runs
  → Each (FitsIn limit) others → words-in others ≡ front ++ words-in runs
  → length runs ≤ length others
no-fewer limit front [] others _ _ _ _ = z≤n
no-fewer limit front ((w ∷ run) ∷ runs) [] _ _ _ e = absurd (++-filled front (sym e))
no-fewer limit front (run ∷ runs) (other ∷ others) tight (p , filled) (f , fits) e
  with cuts (front ++ run) (words-in runs) other (words-in others) (++-assoc front run _ ∙ sym e)
... | inl ([] , _ , is′) =
  s≤s (no-fewer limit [] runs others (later runs tight) filled fits (sym is′))
... | inl (word ∷ back , is , is′) =
  absurd (takes-no-more limit front run runs word back tight (p , filled) is′
    (subst (FitsIn limit) (is ∙ ++-assoc front run (word ∷ back)) f))
... | inr (word , back , _ , is′) =
  s≤s (no-fewer limit (word ∷ back) runs others (later runs tight) filled fits is′)

fewest : ∀ limit words runs → IsTightBreaking limit words runs → IsFewestBreaking limit words runs
fewest limit words runs p@(mk fitting tight) = mk p λ others other →
  no-fewer limit [] runs others tight (breaks-of fitting .proj₁) (breaks-of other .proj₂)
    (other .$all-words ∙ sym (fitting .$all-words))

-- If two breakings are tight, neither's first run goes on where the other's ends.
one-tight : ∀ limit runs others → NoneTakesMore limit runs → Breaks limit runs
  → NoneTakesMore limit others → Breaks limit others → words-in runs ≡ words-in others
  → runs ≡ others
one-tight limit [] [] _ _ _ _ _ = refl
one-tight limit [] ([] ∷ others) _ _ _ ((() , _) , _) _
one-tight limit ([] ∷ runs) [] _ ((() , _) , _) _ _ _
one-tight limit (run ∷ runs) (other ∷ others) t ((p , ps) , (f , fs)) u ((q , qs) , (g , gs)) e
  with cuts run (words-in runs) other (words-in others) e
... | inl (word ∷ back , refl , is′) =
  absurd (takes-no-more limit [] run runs word back t (p , ps) is′ g)
... | inr (word , back , refl , is′) =
  absurd (takes-no-more limit [] other others word back u (q , qs) is′ f)
... | inl ([] , is , is′) rewrite is | ++-nil run = cong (run ∷_)
  (one-tight limit runs others (later runs t) (ps , fs) (later others u) (qs , gs) is′)

one-tight-breaking : ∀ limit words → AtMostOne (IsTightBreaking limit words)
one-tight-breaking limit words runs others (mk p t) (mk q u) = one-tight limit runs others
  t (breaks-of p) u (breaks-of q) (p .$all-words ∙ sym (q .$all-words))

-- Filling rows gives a tight breaking -------------------------------------------------------------

-- The first run begins with the words that it already has.
begun : ∀ limit run words
  → Σ[ more ∈ Run ] Σ[ runs ∈ List Run ] runs-from limit run words ≡ (run ++ more) ∷ runs
begun limit run [] = [] , [] , cong (_∷ []) (sym (++-nil run))
begun limit run (word ∷ words) with has-room limit run word
... | false = [] , _ , cong (_∷ _) (sym (++-nil run))
... | true with begun limit (run ++ word ∷ []) words
...   | more , runs , e = word ∷ more , runs , e ∙ cong (_∷ runs) (++-assoc run (word ∷ []) more)

tight-breaking : ∀ {limit words} runs → words-in runs ≡ words → Breaks limit runs
  → NoneTakesMore limit runs → IsTightBreaking limit words runs
tight-breaking runs all (filled , fits) =
  mk (mk all (all-of Filled runs filled) (all-of _ runs fits))

-- In rows that are filled word by word, each row fits, and a word that begins a row had no room in
-- the row before.
filled-up : ∀ limit w run words → FitsIn limit (w ∷ run)
  → IsTightBreaking limit ((w ∷ run) ++ words) (runs-from limit (w ∷ run) words)
filled-up limit w run [] fits =
  tight-breaking ((w ∷ run) ∷ []) refl ((s≤s z≤n , tt) , (fits , tt)) tt
filled-up limit w run (word ∷ words) fits with has-room limit (w ∷ run) word in room
... | true rewrite sym (++-assoc run (word ∷ []) words) =
  filled-up limit w (run ++ word ∷ []) words (inr (leb→≤ _ _ room))
... | false with begun limit (word ∷ []) words | filled-up limit word [] words (inl refl)
...   | more , runs , is | mk fitting tight rewrite is = tight-breaking _
  (cong ((w ∷ run) ++_) (fitting .$all-words))
  ((s≤s z≤n , breaks-of fitting .proj₁) , (fits , breaks-of fitting .proj₂)) (no-room , tight)
  where
    several : ∀ run → length (w ∷ run ++ word ∷ []) ≢ 1
    several [] ()
    several (x ∷ run) ()
    no-room : ¬ (FitsIn limit ((w ∷ run) ++ word ∷ []))
    no-room (inl e) = several run e
    no-room (inr few) = true≢false (<→ltb (s≤s few)) room

runs-tight : ∀ limit words → IsTightBreaking limit words (runs-of limit words)
runs-tight limit [] = tight-breaking [] refl (tt , tt) tt
runs-tight limit (word ∷ words) = filled-up limit word [] words (inl refl)

-- The clauses of `usage_texts_are_computed` -------------------------------------------------------

description : ∀ limit desc → IsTheOnly (IsDescriptionRows limit desc) (description-rows limit desc)
description limit desc = only-by
  (mk _ (zip-map (runs-of limit) (runs-tight limit) (map words-of (lines-of desc))) refl)
  λ { _ _ (mk a p refl) (mk b q refl) →
    cong (λ breakings → map text-of (flat-map (λ runs → runs) breakings))
      (zip-unique (one-tight-breaking limit) _ a b p q) }

fewest-rows : ∀ limit desc rows → IsDescriptionRows limit desc rows
  → BreaksInto (IsFewestBreaking limit) desc rows
fewest-rows limit desc rows (mk breakings p is) =
  mk breakings (zip-weaken (fewest limit) _ breakings p) is

usage-rows : ∀ columns options
  → IsTheOnly (AreUsageRowsIn columns options) (usage-rows-in-result columns options)
usage-rows columns options = only-by
  (zip-map _ (λ group → _ , described group _ .proj₂ refl , refl) (options .$groups))
  (zip-unique (λ { group _ _ (rows , p , refl) (rows′ , q , refl) →
    cong (row-text (head (options .$long-only) (any-short (options .$groups)) group))
      (described group rows .proj₁ p ∙ sym (described group rows′ .proj₁ q)) }) (options .$groups))
  where
    described = λ group → description (description-columns columns) (group .$description)

usage-text-is : ∀ columns options brief
  → IsTheOnly (IsUsageTextIn columns options brief) (usage-in-result columns options brief)
usage-text-is columns options brief = only-by (_ , usage-rows columns options _ .proj₂ refl , refl)
  λ { _ _ (rows , p , refl) (rows′ , q , refl) → cong (usage-text brief)
    (usage-rows columns options rows .proj₁ p ∙ sym (usage-rows columns options rows′ .proj₁ q)) }
