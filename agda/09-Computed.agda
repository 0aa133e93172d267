{-# OPTIONS --safe --without-K #-}
-- The functions of the definitions, such as `parse_result`, compute the only value that their
-- relations allow.
module 09-Computed where

open import Definitions
open import 01-Basics
open import 03-Reads
open import 04-Decided
open import 05-Resolved
open import 06-Accepted
open import 07-Canonical

-- A relation of results has at most one value if each of its parts has at most one, and only one
-- part has any.
one-result : ∀ {X E : Set} {P : X → Set} {Q : E → Set} → AtMostOne P
  → (∀ {x f} → P x → ¬ (Q f)) → AtMostOne Q → AtMostOne (λ a → MatchResult a P Q)
one-result unique apart unique′ (Ok x) (Ok x′) p q = cong Ok (unique x x′ p q)
one-result unique apart unique′ (Ok x) (Err f) p q = absurd (apart p q)
one-result unique apart unique′ (Err f) (Ok x) p q = absurd (apart q p)
one-result unique apart unique′ (Err f) (Err f′) p q = cong Err (unique′ f f′ p q)

-- Main names with `=` -----------------------------------------------------------------------------

-- A text that contains `=` is cut before its end.
cut-before : ∀ xs ys → holds-equals xs ≡ true
  → Σ[ more ∈ Text ] cut-at-equals (xs ++ ys) .proj₂ ≡ Some (more ++ ys)
cut-before (c ∷ xs) ys e with eqb c equals-sign
... | true = xs , refl
... | false = cut-before xs ys e

longer : ∀ (x : Text) more → x ≢ more ++ equals-sign ∷ x
longer x more e = not-less (subst (length x <_)
  (sym (cong length e ∙ length-++ more (equals-sign ∷ x))) (≤-after (length more) ≤-refl))

-- A main name with `=` would be cut at it, so no valid item spells it.
no-item : ∀ options m → holds-equals (main-at (options .$groups) (m .$place)) ≡ true
  → HasNoItem options m
no-item options m eq s l (free w) lawful () first
no-item options m eq s l (cluster bs end) (mk _ plain _ _) ms first =
  true≢false (cong begins-with-dash (cons-tail (some first))) plain
no-item options m eq s l (long d n a) (mk p no-equals _) ms first = go d p a (value ms) (some first)
  where
    main = main-at (options .$groups) (m .$place)
    value : ∀ {m m′ : Mention} {ms} → m ∷ [] ≡ m′ ∷ ms → m .$value ≡ m′ .$value
    value refl = refl
    go : ∀ d → MayPrecede l d n → ∀ a → value-of a ≡ m .$value
      → long-word d n (attached-argument a) ≢ long-word two main (m .$value)
    go one (_ , plain) a v e = true≢false (cong begins-with-dash (cons-tail e)) (dashless n a plain)
      where
        dashless : ∀ n a → begins-with-dash n ≡ false
          → begins-with-dash (n ++ with-equals (attached-argument a)) ≡ false
        dashless [] none _ = refl
        dashless [] (attached x) _ = refl
        dashless [] (separate x) _ = refl
        dashless (c ∷ n) a plain = plain
    go two _ a v e with cut-before main (with-equals (m .$value)) eq
    ... | more , is = cut a v (cong proj₂ (sym (cut-whole n (attached-argument a) no-equals)
        ∙ cong cut-at-equals (cons-tail (cons-tail e))) ∙ is)
      where
        cut : ∀ a → value-of a ≡ m .$value
          → attached-argument a ≢ Some (more ++ with-equals (m .$value))
        cut none v ()
        cut (separate x) v ()
        cut (attached x) v e rewrite sym v = longer x more (some e)

-- A content is plain, or one of its mentions isn't.
plain-or-not : ∀ groups ms
  → let plain = list-all (λ m → not (holds-equals (main-at groups (m .$place)))) ms in
  (plain ≡ true × Each (Plain groups) ms)
  ⊎ (plain ≡ false × (Σ[ m ∈ Mention ] Contains ms m
    × (holds-equals (main-at groups (m .$place)) ≡ true)))
plain-or-not groups [] = inl (refl , tt)
plain-or-not groups (m ∷ ms) with holds-equals (main-at groups (m .$place)) in is
... | true = inr (refl , m , (0 , s≤s z≤n , refl) , is)
... | false with plain-or-not groups ms
...   | inl (e , all) = inl (e , refl , all)
...   | inr (e , m′ , (k , below , at) , eq) = inr (e , m′ , (suc k , s≤s below , at) , eq)

-- Any options have at most one result of each call ------------------------------------------------

module _ (options : Declared) (words : List Text) where

  one-accepted : ∀ {c c′} (p : IsAcceptedWith options words c) (q : IsAcceptedWith options words c′)
    → p .$reading ≡ q .$reading
  one-accepted (mk r only _ _) (mk _ only′ _ _) = only′ r .proj₁ (only r .proj₂ refl)

  one-content : AtMostOne (IsAcceptedWith options words)
  one-content c c′ p q =
    p .$content-is ∙ cong (content-of options) (one-accepted p q) ∙ sym (q .$content-is)

  content-or-refused : ∀ {c f} → IsAcceptedWith options words c → ¬ (IsRefused options words f)
  content-or-refused (mk r only kept _) =
    accepted-or-refused options words (mk (mk r only refl) kept)

  one-parse-result : AtMostOne (IsParseResult options words)
  one-parse-result = one-result (λ m m′ p q → one-matches options words m m′ (p .$read) (q .$read))
    (accepted-or-refused options words) (one-fault options words)

  one-unread : AtMostOne (HasNoReading options words)
  one-unread f f′ p q = one-fault options words f f′ (inl p) (inl q)

  one-read-result : AtMostOne (IsReadResult options words)
  one-read-result = one-result (one-matches options words) (not-unread options words) one-unread

  one-canonical-result : AtMostOne (IsCanonicalResult options words)
  one-canonical-result = one-result one-written
      (λ { {None} (mk _ p _ _ _) → content-or-refused p
         ; {Some l} (mk _ p _ _) → content-or-refused p })
      (one-fault options words)
    where
      plain-and-not : ∀ {line} → IsUnwritable options words → ¬ (IsWritten options words line)
      plain-and-not (mk _ p _ not-plain _) (mk _ q plain _) =
        not-plain (subst (IsPlain (options .$groups)) (one-content _ _ q p) plain)
      one-written : AtMostOne (λ written →
        MatchOption written (IsUnwritable options words) (IsWritten options words))
      one-written None None p q = refl
      one-written None (Some line) p q = absurd (plain-and-not p q)
      one-written (Some line) None p q = absurd (plain-and-not q p)
      one-written (Some _) (Some _) (mk _ p _ refl) (mk _ q _ refl) =
        cong (λ c → Some (canonical-line (options .$groups) c)) (one-content _ _ p q)

  one-order-result : AtMostOne (IsOrderResult options words)
  one-order-result =
    one-result one-order (λ { (mk _ p _ _ _) → content-or-refused p }) (one-fault options words)
    where
      one-order : AtMostOne (IsOrder options words)
      one-order _ _ (mk _ p refl _ _) (mk _ q refl _ _) =
        cong (order-of-reading (grammar-of options)) (one-accepted p q)

-- The functions give results ----------------------------------------------------------------------

module _ (options : Declared) (named : Each IsNamed (names-of (options .$groups)))
  (words : List Text) (texts : AreTexts words) where
  private
    open module N = Named options named
    gs = options .$groups

  reading-is : IsReadingOf options words (reading-or-error options words)
  reading-is with read g words | decided g sane words texts
  ... | Ok r | p = p
  ... | Err f | scan = unread scan

  line-is : IsLineOf options words (accepted-reading options words)
  line-is with read g words | decided g sane words texts
  ... | Err f | scan = inl (unread scan)
  ... | Ok r | p
    with first-count-fault (matches-of options r .$groups) | counted (matches-of options r .$groups)
  ...   | None | kept = mk p kept
  ...   | Some f | breaks = inr (mk _ (has-reading r p) breaks)

  -- What is made of the accepted reading is right if it is right for each reading that keeps the
  -- counts.
  made-of-line : ∀ {X : Set} (P : X → Set) (make : Reading → X)
    → (∀ r → IsCountKeeping options r words → P (make r))
    → MatchResult (made-of make (accepted-reading options words)) P (IsRefused options words)
  made-of-line P make h with accepted-reading options words | line-is
  ... | Ok r | kept = h r kept
  ... | Err f | refused = refused

  only-parse : IsTheOnly (IsParseResult options words) (parse-result options words)
  only-parse = only-by (made-of-line _ (matches-of options) accept) (one-parse-result options words)

  read-is : IsReadResult options words (parse-ignoring-counts-result options words)
  read-is with read g words | reading-is
  ... | Ok r | p = has-reading r p
  ... | Err f | none-is = none-is

  accepted-with : ∀ r → IsCountKeeping options r words
    → IsAcceptedWith options words (content-of options r)
  accepted-with r (mk p kept) = mk r (only-by p (one-reading words)) kept refl

  canonical-is : IsCanonicalResult options words (canonical-result options words)
  canonical-is = made-of-line (λ written → IsCanonicalResult options words (Ok written)) _ written?
    where
      written? : ∀ r → IsCountKeeping options r words
        → IsCanonicalResult options words (Ok (written-line gs (content-of options r)))
      written? r kept with plain-or-not gs (content-of options r .$mentions)
      ... | inl (is , plain) rewrite is = mk _ (accepted-with r kept) plain refl
      ... | inr (is , m , inside , eq) rewrite is = mk (content-of options r) (accepted-with r kept)
        (Lines.sound options named (Lines.says-accepted options named (accepted-with r kept)))
        (λ all → true≢false eq (each-at (content-of options r .$mentions) all inside))
        (mk m inside (no-item options m eq))

  order-is : IsOrderResult options words (parse-in-order-result options words)
  order-is = made-of-line _ (order-of-reading g) λ { r@(mk items t) kept →
    mk (content-of options r) (accepted-with r kept) refl
      (order-parts g items _ .proj₁
        ∙ cong (mentions-in g items ++_) (only-words (tail-frees t) .proj₁) ∙ ++-nil _
        ∙ sym (mentions-are g 0 items))
      (order-parts g items _ .proj₂
        ∙ cong (free-items items ++_) (only-words (tail-frees t) .proj₂)) }

  -- Each result is right, and at most one is.
  has-results : HasResults options words
  has-results = mk
    (only-by reading-is (one-result (one-reading words)
      (λ p q → q .$no-reading _ p) (one-unread options words)))
    (only-by line-is (one-result (λ r r′ p q → one-reading words r r′ (p .$reads) (q .$reads))
      (λ kept → accepted-or-refused options words (accept _ kept)) (one-fault options words)))
    only-parse
    (only-by read-is (one-read-result options words))
    (only-by canonical-is (one-canonical-result options words))
    (only-by order-is (one-order-result options words))
