{-# OPTIONS --safe --without-K #-}
-- Examples of what some definitions forbid that no lemma is about. What functions give is tested:
-- see check.sh.
module 12-Examples where

open import Definitions
open import 01-Basics

out-of-order : ∀ s v v′ → ¬ (HavePositionsInOrder (mk s (mk 3 v ∷ mk 0 v′ ∷ []) ∷ []))
out-of-order s v v′ (rising , _) with rising 0 1 (mk 0 v) z≤n (s≤s (s≤s z≤n))
... | ()

outside : ∀ s v → ¬ (HavePositionsBelow 3 (mk s (mk 3 v ∷ []) ∷ []))
outside s v ((s≤s (s≤s (s≤s ())) , _) , _)

-- `verbose` takes no argument.
undeclared : ¬ (IsDeclared (optflagmulti (codes "v") (codes "verbose") [] ∷ []) (option 0 (Some [])))
undeclared (_ , ())
