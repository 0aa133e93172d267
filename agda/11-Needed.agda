{-# OPTIONS --safe --without-K #-}
-- Premises that the main theorem needs: without each, it is false.
module 11-Needed where

open import Definitions
open import 01-Basics

declared-with : List Group → Declared
declared-with groups = mk groups FloatingFrees false

flag : Text → Text → Group
flag s l = group-of s l [] [] No Multi

-- Without `named` of `AreLawful`: a group without names. `--` is the stop, and its option.
two-readings : ¬ (OneReading (declared-with (flag [] [] ∷ [])))
two-readings unique
  with unique (stop-word ∷ []) (mk [] (stop [])) (mk (long two [] none ∷ []) no-tail)
    (mk refl tt tt tt) (mk refl (mk tt refl (No , refl , tt) , tt) tt ((λ ()) , tt))
... | ()

-- Without `shorts` of `MayBeDeclared`, or `long_fits` of `AreLawful`: flags of the two bytes of
-- `é`, as short names or as long names. `-éx` has two scan errors.
halves : (Text → Group) → Declared
halves named = declared-with (named (195 ∷ []) ∷ named (169 ∷ []) ∷ [])

halves-named : AreLawfullyNamed (halves (λ name → flag name []) .$groups)
halves-named = lawful , lawful , tt
  where
    lawful : ∀ {b} → AreLawful (b ∷ []) []
    lawful = mk (s≤s z≤n) (λ ()) (s≤s z≤n)

TwoErrors : (Text → Group) → Set
TwoErrors named = IsScanFault g words (unrecognized-option (195 ∷ 169 ∷ []))
  × IsScanFault g words (unrecognized-option (120 ∷ []))
  where
    g = grammar-of (halves named)
    words = (dash ∷ 195 ∷ 169 ∷ 120 ∷ []) ∷ []

two-errors : ∀ named → Each (IsFlag (grammar-of (halves named))) (195 ∷ 169 ∷ [])
  → kind-of (halves named .$groups) (120 ∷ []) ≡ None → TwoErrors named
two-errors named are-flags unknown =
  mk [] _ [] [] refl (mk refl tt tt tt)
    (wide-character 233 (120 ∷ []) refl (s≤s (s≤s z≤n)) (mk [] refl refl refl tt))
  , mk [] _ [] [] refl (mk refl tt tt tt) (unknown-byte 120 [] (ltb→< 120 128 refl)
    (mk (195 ∷ 169 ∷ []) refl refl refl are-flags) unknown)

without-shorts : TwoErrors (λ name → flag name [])
without-shorts = two-errors (λ name → flag name []) (refl , refl , tt) refl
without-long-fits : TwoErrors (λ name → flag [] name)
without-long-fits = two-errors (λ name → flag [] name) (refl , refl , tt) refl

-- Without `AreTexts` in `HaveResults`: `-` and a byte that begins no character. `read` gives an
-- error with an empty name, which no scan error has.
no-result : ¬ (HasResults (declared-with []) ((dash ∷ 200 ∷ []) ∷ []))
no-result results with results .$reading (Err (unrecognized-option [])) .proj₂ refl
... | mk only _ with only (unrecognized-option []) .proj₂ refl
...   | mk (x ∷ xs) _ _ _ e _ _ = ++-filled xs (sym (cons-tail e))
...   | mk [] _ _ _ refl _ fault = named fault refl
  where
    named : ∀ {ws f} → IsFaultAt (grammar-of (declared-with [])) (dash ∷ 200 ∷ []) ws f
      → f ≢ unrecognized-option []
    named (unknown-name _ _ (mk one (() , _) _ _ _) _) is
    named (unknown-name [] None (mk two _ _ () _) _) refl
    named (unknown-name [] (Some x) (mk two _ _ () _) _) refl
    named (wide-character c _ _ several _) is with encode c
    named (wide-character c _ _ () _) is | []
    named (wide-character c _ _ several _) () | x ∷ bytes
