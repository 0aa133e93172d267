{-# OPTIONS --safe --without-K #-}
-- A loop gives what the line's reading gives, one option or free word at a time. Before an error,
-- it gives what the reading of the words up to the error gives.
module 10-Loops where

open import Definitions
open import 01-Basics
open import 03-Reads
open import 04-Decided

cut-after : ∀ xs {ws front left} → IsCut ws front left → IsCut (xs ++ ws) (xs ++ front) left
cut-after xs {front = front} (after-word is refl) = after-word is (sym (++-assoc xs front _))
cut-after xs (in-cluster before w refl refl) =
  in-cluster (xs ++ before) w (sym (++-assoc xs before _)) (sym (++-assoc xs before _))

smaller : ∀ k xs ws → words-size ws < suc k + words-size (xs ++ ws)
smaller k [] ws = s≤s (≤-after k ≤-refl)
smaller k (x ∷ xs) ws =
  s≤s (≤-after k (≤-trans (≤-after 1 ≤-refl) (smaller (length x) xs ws)))

module _ (options : Declared) (sane : Sane (grammar-of options)) where
  private g = grammar-of options

  -- What a trace gives that begins with this, and its error.
  outcome : ℕ → Next → List Given × Option Fault
  outcome n next =
    let all = trace-from (trace-within n options) next in given-in all , fault-in all

  -- With enough fuel, a trace of what is left gives these, and has this error, if there is one.
  record Yields (left : Left) (given : List Given) (fault : Option Fault) : Set where
    constructor mk
    field
      run : ∀ n → size-of left ≤ n → outcome n (next-result options left) ≡ (given , fault)
  open Yields

  one-more : ∀ {left one after more fault} → next-result options left ≡ Ok (Some (one , after))
    → size-of after < size-of left → Yields after more fault → Yields left (one ∷ more) fault
  one-more e less yields .run n p with ≤-trans less p
  ... | s≤s {n = m} q = cong (outcome (suc m)) e
    ∙ cong (λ (more , fault) → _ ∷ more , fault) (yields .run m q)

  -- Items -----------------------------------------------------------------------------------------

  -- Flags are given one by one, and then what is given after them.
  flags-yield : ∀ bs end t ws {more fault} → Each (IsFlag g) bs
    → Yields (mk t ws None) (map given-option (end-mentions g end) ++ more) fault
    → Yields (mk (bs ++ t) ws None) (given-by g (cluster bs end) ++ more) fault
  flags-yield [] end t ws _ yields = yields
  flags-yield (b ∷ bs) end t ws (is , all) yields =
    one-more (cong (λ k → next-name k g b (mk (bs ++ t) ws None)) is) ≤-refl
      (flags-yield bs end t ws all yields)

  cluster-yields : ∀ bs end t ws {more fault} → g .$long-only ≡ false
    → begins-with-dash (bs ++ t) ≡ false → bs ++ t ≢ [] → Each (IsFlag g) bs
    → Yields (mk t ws None) (map given-option (end-mentions g end) ++ more) fault
    → Yields (whole ((dash ∷ bs ++ t) ∷ ws)) (given-by g (cluster bs end) ++ more) fault
  cluster-yields bs end t ws mode no-dash filled all yields .run n p =
    cong (outcome n) (short-form g (bs ++ t) ws mode no-dash filled .proj₂)
    ∙ flags-yield bs end t ws all yields .run n (≤-trans (≤-after 2 ≤-refl) p)

  item-yields : ∀ i ws {more fault} → IsLawfulItem g i → (is-bare i ≡ true → EndsOrIsDashed ws)
    → Yields (whole ws) more fault
    → Yields (whole (item-words i ++ ws)) (given-by g i ++ more) fault
  item-yields (free w) ws (plain , style) _ =
    one-more (free-form g w ws plain style .proj₂) (smaller (length w) [] ws)
  item-yields (long d n a) ws lawful _ = one-more (long-taken g d n a ws sane lawful .proj₂
    ∙ cong (λ ws → Ok (Some (_ , whole ws))) (drop-all (argument-words a) ws))
    (smaller _ (argument-words a) ws)
  item-yields (cluster bs flags) ws (mk mode no-dash all filled) _ =
    cluster-yields bs flags [] ws mode no-dash (filled-left bs filled) all
  item-yields (cluster bs (ends-in o a)) ws (mk mode no-dash all (k , r , fits)) followed yields
    with end-chosen g [] o a k ws r fits (λ { refl → followed refl })
  ... | is , no-names = cluster-yields bs (ends-in o a) _ _ mode no-dash (++-filled bs) all
    (one-more (cong₂ (λ names → next-by-step g (mk names (argument-words a ++ ws) None)) no-names is
      ∙ cong (λ ws → Ok (Some (_ , whole ws))) (drop-all (argument-words a) ws))
      (smaller _ (argument-words a) ws) yields)

  -- Tails -----------------------------------------------------------------------------------------

  frees-yield : ∀ ws {left} → next-result options left ≡ next-free ws
    → words-size ws ≤ size-of left → Yields left (map free-word ws) None
  frees-yield [] e _ .run n _ = cong (outcome n) e
  frees-yield (w ∷ ws) e p =
    one-more e (≤-trans (smaller (length w) [] ws) p) (frees-yield ws refl ≤-refl)

  tail-yields : ∀ t → IsLawfulTail g t
    → Yields (whole (tail-words t)) (map free-word (tail-frees t)) None
  tail-yields no-tail _ = frees-yield [] refl z≤n
  tail-yields (stop ws) _ = frees-yield ws refl (≤-after 3 ≤-refl)
  tail-yields (rest (w ∷ ws)) (plain , style) =
    frees-yield (w ∷ ws) (free-form g w ws plain style .proj₂) ≤-refl

  -- Errors ----------------------------------------------------------------------------------------

  -- The words begin with these items, which a loop gives, and what is left begins with the error.
  Stops : List Text → Fault → Set
  Stops words f = Σ[ items ∈ List Item ] Σ[ left ∈ Left ] IsCut words (spelled-all items []) left
    × (next-result options left ≡ Err f) × Yields (whole words) (order-of-items g items) (Some f)
    × Each (IsLawfulItem g) items × AreWellFollowed items []
    × (EndsOrIsDashed words → EndsOrIsDashed (spelled-all items []))

  at-start : ∀ {w ws f} → next-option g [] (w ∷ ws) None ≡ Err f → Stops (w ∷ ws) f
  at-start e =
    [] , _ , after-word refl refl , e , mk (λ n _ → cong (outcome n) e) , tt , tt , λ _ → tt

  -- Flags before the error are a cluster of their own.
  fault-stops : ∀ {w ws f} → Fails g w ws f → Stops (w ∷ ws) f
  fault-stops (at-word is) = at-start (is .proj₂)
  fault-stops (at-byte b (mk [] mode refl no-dash _) e) =
    at-start (short-form g _ _ mode no-dash (λ ()) .proj₂ ∙ cong (next-by-step g _) (e [] _))
  fault-stops {ws = ws} {f} (at-byte b {t} (mk bs@(_ ∷ _) mode refl no-dash all) e) =
    cluster bs flags ∷ [] , mk (b ∷ t) ws None
    , in-cluster [] (dash ∷ bs ++ []) refl (cong (λ t → (dash ∷ t) ∷ ws) (sym (++-assoc bs [] _)))
    , error , cluster-yields bs flags (b ∷ t) ws mode no-dash (λ ()) all
      (mk λ n _ → cong (outcome n) error)
    , (mk mode no-dash all (λ ()) , tt) , ((λ ()) , tt) , λ _ → refl
    where
      error : next-option g (b ∷ t) ws None ≡ Err f
      error = cong (next-by-step g _) (e [] _)

  -- Whole lines -----------------------------------------------------------------------------------

  Loops : List Text → ReadResult → Set
  Loops words o =
    MatchResult o (λ r → Yields (whole words) (order-of-reading g r) None) (Stops words)

  loops : ∀ words → Loops words (read g words)
  loops = by-words g sane of-item tail-yields λ it _ → fault-stops it
    where
      of-item : ∀ i more o → IsLawfulItem g i → (is-bare i ≡ true → EndsOrIsDashed more)
        → Loops more o → Loops (item-words i ++ more) (with-items (i ∷ []) o)
      of-item i more (Ok r) lawful followed yields = subst (λ order → Yields _ order None)
        (sym (++-assoc (given-by g i) _ _)) (item-yields i more lawful followed yields)
      of-item i more (Err f) lawful followed
        (items , left , cut , error , yields , all , fs , alike) =
        i ∷ items , left , cut-after (item-words i) cut , error
        , item-yields i more lawful followed yields
        , (lawful , all) , ((λ bare → alike (followed bare)) , fs) , ends-same (i ∷ []) alike

  loop-gives : ∀ line → let all = trace options (whole line) in
    (order-in all ≡ order-or-error options line)
    × (∀ f → order-or-error options line ≡ Err f → PrecedeError options line (given-in all) f)
  loop-gives line with read g line | loops line
  ... | Ok r | yields =
    cong (λ (given , fault) → unless-fault given fault) (yields .run _ ≤-refl) , λ f ()
  ... | Err f | items , left , cut , error , yields , all , fs , _ =
    cong (λ (given , fault) → unless-fault given fault) is
    , λ { _ refl → mk (spelled-all items []) left cut
      (cong (made-of (order-of-reading g))
        (reading-read g {mk items no-tail} sane (mk refl all tt fs))
      ∙ cong Ok (++-nil _ ∙ sym (cong proj₁ is)))
      (cong (trace-from _) error) }
    where is = yields .run _ ≤-refl
