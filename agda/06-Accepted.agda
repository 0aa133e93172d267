{-# OPTIONS --safe --without-K #-}
-- Words have at most one reading, which decides whether they are accepted or rejected.
module 06-Accepted where

open import Definitions
open import 01-Basics
open import 03-Reads
open import 05-Resolved

-- Any sane grammar --------------------------------------------------------------------------------

-- `read` gives each reading and each scan error. So words have at most one of these. UTF-8 words
-- have exactly one.
module _ (g : Grammar) (sane : Sane g) (words : List Text) where

  one-reading-of : AtMostOne (λ r → IsReading g r words)
  one-reading-of r r′ p q with sym (reading-read g sane p) ∙ reading-read g sane q
  ... | refl = refl

  one-scan-fault : AtMostOne (IsScanFault g words)
  one-scan-fault f f′ p q with sym (fault-read sane p) ∙ fault-read sane q
  ... | refl = refl

  not-both : ∀ {r f} → IsReading g r words → ¬ (IsScanFault g words f)
  not-both p q with sym (reading-read g sane p) ∙ fault-read sane q
  ... | ()

-- Counts ------------------------------------------------------------------------------------------

-- Either all groups keep their counts, or `first_count_fault` finds the count error.
counted : ∀ groups
  → MatchOption (first-count-fault groups) (KeepsCounts groups) (IsCountFault groups)
counted [] = tt
counted (g ∷ gs) with fits-count (g .$signature .$occur) (length (g .$occurrences)) in e
... | false = mk [] g gs refl tt (λ k → true≢false k e) refl
... | true with first-count-fault gs | counted gs
...   | None | ks = refl , ks
...   | Some f | mk before b after is kept broken fault-is =
          mk (g ∷ before) b after (cong (g ∷_) is) (e , kept) broken fault-is

count-fault-first : ∀ {groups f} → IsCountFault groups f → first-count-fault groups ≡ Some f
count-fault-first (mk before g after refl kept broken refl) = go before kept
  where
    go : ∀ before → KeepsCounts before
      → first-count-fault (before ++ g ∷ after) ≡ Some (broken-count g)
    go [] _ rewrite not-true _ broken = refl
    go (b ∷ bs) (k , ks) rewrite k = go bs ks

kept-and-broken : ∀ {groups f} → KeepsCounts groups → ¬ (IsCountFault groups f)
kept-and-broken kept (mk before g after refl _ broken _) =
  broken (each-parts before kept .proj₂ .proj₁)

-- Any options -------------------------------------------------------------------------------------

-- Relations of results have at most one value: the matches, or the error.
module _ (options : Declared) (words : List Text) where

  one-matches : AtMostOne (HasReading options words)
  one-matches _ _ (mk r only refl) (mk r′ only′ refl) =
    cong (matches-of options) (only′ r .proj₁ (only r .proj₂ refl))

  not-unread : ∀ {m f} → HasReading options words m → ¬ (HasNoReading options words f)
  not-unread (mk r only _) (mk _ no-reading) = no-reading r (only r .proj₂ refl)

  one-fault : AtMostOne (IsRefused options words)
  one-fault f f′ (inl (mk only _)) (inl (mk only′ _)) = only′ f .proj₁ (only f .proj₂ refl)
  one-fault f f′ (inl p) (inr (mk _ read _)) = absurd (not-unread read p)
  one-fault f f′ (inr (mk _ read _)) (inl q) = absurd (not-unread read q)
  one-fault f f′ (inr (mk m read breaks)) (inr (mk m′ read′ breaks′))
    with one-matches m m′ read read′
  ... | refl = some (sym (count-fault-first breaks) ∙ count-fault-first breaks′)

  accepted-or-refused : ∀ {m f} → IsAccepted options words m → ¬ (IsRefused options words f)
  accepted-or-refused (mk read kept) (inl unread) = not-unread read unread
  accepted-or-refused {m} (mk read kept) (inr (mk m′ read′ breaks)) with one-matches m m′ read read′
  ... | refl = kept-and-broken kept breaks

-- Options whose groups are named ------------------------------------------------------------------

module Named (options : Declared) (named : Each IsNamed (names-of (options .$groups))) where
  g = grammar-of options
  sane = sane-groups options named

  one-reading : OneReading options
  one-reading words = one-reading-of g sane words

  has-reading : ∀ {words} r → IsReading g r words → HasReading options words (matches-of options r)
  has-reading r p = mk r (only-by p (one-reading _)) refl

  unread : ∀ {words f} → IsScanFault g words f → HasNoReading options words f
  unread scan = mk (only-by scan (one-scan-fault g sane _)) λ r p → not-both g sane _ p scan

  accept : ∀ {words} r → IsCountKeeping options r words
    → IsAccepted options words (matches-of options r)
  accept r (mk p kept) = mk (has-reading r p) kept

  -- Accepted words have a reading that keeps the counts, and it is the only reading.
  accepted : AcceptedExactlyWhen options
  accepted words matches =
    (λ { (mk (mk r only refl) kept) → r , mk (only r .proj₂ refl) kept , refl })
    , λ { (r , keeps , refl) → accept r keeps }

  -- Rejected words have no reading, or one that breaks a count.
  refused : RefusedExactlyWhen options
  refused words fault = to , λ { (_ , inl scan) → inl (unread scan)
                               ; (_ , inr (r , p , breaks)) → inr (mk _ (has-reading r p) breaks) }
    where
      to : IsRefused options words fault → _
      to (inl (mk only no-reading)) =
        (λ { r (mk p _) → no-reading r p }) , inl (only fault .proj₂ refl)
      to broken@(inr (mk _ (mk r only refl) breaks)) =
        (λ r′ keeps → accepted-or-refused options words (accept r′ keeps) broken)
        , inr (r , only r .proj₂ refl , breaks)
