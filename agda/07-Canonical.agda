{-# OPTIONS --safe --without-K #-}
-- Canonical lines: each reads back in every style and mode, and equal lines have equal contents.
module 07-Canonical where

open import Definitions
open import 01-Basics
open import 03-Reads
open import 05-Resolved
open import 06-Accepted

-- What readings mention ---------------------------------------------------------------------------

mention-in : Occurrence → Mention
mention-in o = o .$mention

mentions-in : Grammar → List Item → List Mention
mentions-in g items = flat-map (mentions g) items

-- Occurrences mention what their items mention, whatever the positions.
mentions-are : ∀ g before items
  → map mention-in (occurrences-after before g items) ≡ mentions-in g items
mentions-are g before [] = refl
mentions-are g before (i ∷ items) =
  map-++ mention-in (map (at-position before) (mentions g i)) later
  ∙ cong (_++ map mention-in later) (here (mentions g i))
  ∙ cong (mentions g i ++_) (mentions-are g _ items)
  where
    later = occurrences-after (before + word-count (i ∷ [])) g items
    here : ∀ ms → map mention-in (map (at-position before) ms) ≡ ms
    here [] = refl
    here (m ∷ ms) = cong (m ∷_) (here ms)

-- The order of items has their mentions and their free words.
order-parts : ∀ g items more → let order = order-of-items g items ++ more in
  (options-in order ≡ mentions-in g items ++ options-in more)
  × (frees-in order ≡ free-items items ++ frees-in more)
order-parts g [] more = refl , refl
order-parts g (free w ∷ items) more with order-parts g items more
... | os , fs = os , cong (w ∷_) fs
order-parts g (long d n a ∷ items) more with order-parts g items more
... | os , fs = cong (_ ∷_) os , fs
order-parts g (cluster bs end ∷ items) more = go (mentions g (cluster bs end))
  where
    go : ∀ ms → let order = (map given-option ms ++ order-of-items g items) ++ more in
      (options-in order ≡ (ms ++ mentions-in g items) ++ options-in more)
      × (frees-in order ≡ free-items items ++ frees-in more)
    go [] = order-parts g items more
    go (m ∷ ms) with go ms
    ... | os , fs = cong (m ∷_) os , fs

only-words : ∀ ws → (options-in (map free-word ws) ≡ []) × (frees-in (map free-word ws) ≡ ws)
only-words [] = refl , refl
only-words (w ∷ ws) = only-words ws .proj₁ , cong (w ∷_) (only-words ws .proj₂)

-- What is true of a mention in a reading of options with these groups.
record Given-by (groups : List Group) (m : Mention) : Set where
  constructor mk
  field
    {group} : Group
    at : slice-get groups (m .$place) ≡ Some group
    resolves : resolution (names-of groups) (main-name (group .$signature .$names))
      ≡ Some (m .$place)
    fits : FitsKind (group .$signature .$kind) (m .$value)

mentioned : ∀ groups n k v → kind-of groups n ≡ Some k → FitsKind k v
  → Given-by groups (mk (unwrap-or (resolution (names-of groups) n) 0) v)
mentioned groups n k v e fits with resolution (names-of groups) n in r
... | Some p with slice-get groups p in at
...   | Some group with e
...     | refl = mk at (main-name-resolves (names-of groups) n p _ r (map-get _ groups p at)) fits

fits-long : ∀ k a → FitsLong k a → FitsKind k (value-of a)
fits-long Yes a fits = fits
fits-long No a fits = fits
fits-long Maybe none fits = tt
fits-long Maybe (attached x) fits = tt

fits-end : ∀ k a → FitsEnd k a → FitsKind k (value-of a)
fits-end .Maybe none refl = tt
fits-end No (attached x) (no , _) = no refl
fits-end Yes (attached x) fits = tt
fits-end Maybe (attached x) fits = tt
fits-end No (separate x) (no , _) = no refl
fits-end Yes (separate x) fits = tt
fits-end Maybe (separate x) fits = tt

-- The proofs use only the groups, so the style and the mode may be any.
given : ∀ options i → IsLawfulItem (grammar-of options) i
  → Each (Given-by (options .$groups)) (mentions (grammar-of options) i)
given options (free w) _ = tt
given options (long d n a) (mk _ _ (k , r , fits)) =
  mentioned _ n k (value-of a) r (fits-long k a fits) , tt
given options (cluster bs end) (mk _ _ all last) =
  each-++ (map _ bs) (each-mapped _ (λ b flag → mentioned _ (b ∷ []) No None flag tt) bs all)
    (of-end end last)
  where
    of-end : ∀ end → IsLawfulEnd (grammar-of options) bs end
      → Each (Given-by (options .$groups)) (end-mentions (grammar-of options) end)
    of-end flags _ = tt
    of-end (ends-in o a) (k , r , fits) =
      mentioned _ (o ∷ []) k (value-of a) r (fits-end k a fits) , tt

-- Counts and values depend on mentions alone ------------------------------------------------------

values-of-group : ℕ → List Mention → List (Option Text)
values-of-group place ms = map (λ m → m .$value) (filter (λ m → m .$place == place) ms)

values-are : ∀ place os
  → each-value (occurrences-mentioning place os) ≡ values-of-group place (map mention-in os)
values-are place [] = refl
values-are place (o ∷ os) with eqb (o .$mention .$place) place
... | true = cong (_ ∷_) (values-are place os)
... | false = values-are place os

held-all : ∀ place gs os → held-names (matched place (signatures-of gs) os) ≡ names-of gs
held-all place [] os = refl
held-all place (g ∷ gs) os = cong (g .$signature .$names ∷_) (held-all (place + 1) gs os)

module _ (os os′ : List Occurrence) (same : map mention-in os ≡ map mention-in os′) where

  same-of-group : ∀ place
    → each-value (occurrences-mentioning place os) ≡ each-value (occurrences-mentioning place os′)
  same-of-group place =
    values-are place os ∙ cong (values-of-group place) same ∙ sym (values-are place os′)

  kept-by-mentions : ∀ place sigs
    → KeepsCounts (matched place sigs os) → KeepsCounts (matched place sigs os′)
  kept-by-mentions place [] _ = tt
  kept-by-mentions place (s ∷ sigs) (k , ks) = subst (λ n → fits-count (s .$occur) n ≡ true)
    (sym (length-map _ _) ∙ cong length (same-of-group place) ∙ length-map _ _) k
    , kept-by-mentions _ sigs ks

  same-at : ∀ place sigs at → each-value (occurrences-of-group (matched place sigs os) at)
    ≡ each-value (occurrences-of-group (matched place sigs os′) at)
  same-at place [] at = refl
  same-at place (s ∷ sigs) zero = same-of-group place
  same-at place (s ∷ sigs) (suc at) = same-at (place + 1) sigs at

  same-of-name : ∀ gs name
    → each-value (occurrences-of-name (matched 0 (signatures-of gs) os) name)
    ≡ each-value (occurrences-of-name (matched 0 (signatures-of gs) os′) name)
  same-of-name gs name rewrite held-all 0 gs os | held-all 0 gs os′
    with resolution (names-of gs) name
  ... | None = refl
  ... | Some at = same-at 0 (signatures-of gs) at

-- The canonical reading ---------------------------------------------------------------------------

says : List Mention → List Text → Content
says = mk

-- Main names resolve to their groups, and have no `=`.
Sound Plain : List Group → Mention → Set
Sound groups m = resolution (names-of groups) (main-at groups (m .$place)) ≡ Some (m .$place)
Plain groups m = holds-equals (main-at groups (m .$place)) ≡ false

sound-mention : ∀ groups m → Given-by groups m → Sound groups m
sound-mention groups m (mk at resolves _) rewrite at = resolves

fits-attached : ∀ k v → FitsKind k v → FitsLong k (attached-value v)
fits-attached Yes (Some v) fits = tt
fits-attached No None fits = tt
fits-attached Maybe None fits = tt
fits-attached Maybe (Some v) fits = tt

module _ (options : Declared) where
  private
    g = grammar-of options
    groups = options .$groups

  -- The item of a mention is valid, since the main name resolves to the group and has no `=`.
  canonical-lawful : ∀ m → Given-by groups m × Plain groups m
    → IsLawfulItem g (canonical-item groups m)
  canonical-lawful m (given , plain) =
    mk tt plain (_ , kind given , fits-attached _ (m .$value) (Given-by.fits given))
    where
      kind : (given : Given-by groups m) → kind-of groups (main-at groups (m .$place))
        ≡ Some (Given-by.group given .$signature .$kind)
      kind given rewrite sound-mention groups m given | Given-by.at given = refl

  canonical-mention : ∀ m → Given-by groups m → mentions g (canonical-item groups m) ≡ m ∷ []
  canonical-mention m@(mk _ None) given =
    cong (λ p → mk (unwrap-or p 0) None ∷ []) (sound-mention groups m given)
  canonical-mention m@(mk _ (Some v)) given =
    cong (λ p → mk (unwrap-or p 0) (Some v) ∷ []) (sound-mention groups m given)

  canonical-reads : ∀ content → Each (Given-by groups) (content .$mentions) → IsPlain groups content
    → IsReading g (canonical-reading groups content) (canonical-line groups content)
  canonical-reads (mk ms fs) given plain = mk (spelled ms)
    (each-mapped _ canonical-lawful ms (each-and ms given plain)) tt (followed ms)
    where
      spelled : ∀ ms {more}
        → spelled-all (map (canonical-item groups) ms) more ≡ map (canonical-word groups) ms ++ more
      spelled [] = refl
      spelled (mk _ None ∷ ms) = cong (_ ∷_) (spelled ms)
      spelled (mk _ (Some v) ∷ ms) = cong (_ ∷_) (spelled ms)
      followed : ∀ ms {more} → AreWellFollowed (map (canonical-item groups) ms) more
      followed [] = tt
      followed (m ∷ ms) = (λ ()) , followed ms

  canonical-mentions : ∀ ms → Each (Given-by groups) ms
    → mentions-in g (map (canonical-item groups) ms) ≡ ms
  canonical-mentions [] _ = refl
  canonical-mentions (m ∷ ms) (p , ps) =
    cong (_++ mentions-in g (map (canonical-item groups) ms)) (canonical-mention m p)
    ∙ cong (m ∷_) (canonical-mentions ms ps)

  no-free : ∀ ms → free-items (map (canonical-item groups) ms) ≡ []
  no-free [] = refl
  no-free (m ∷ ms) = no-free ms

  same-content : ∀ content → Each (Given-by groups) (content .$mentions)
    → content-of options (canonical-reading groups content) ≡ content
  same-content (mk ms fs) given = cong₂ says
    (mentions-are g 0 (map (canonical-item groups) ms) ∙ canonical-mentions ms given)
    (cong (_++ fs) (no-free ms))

said-given : ∀ options {words content} → Says options words content
  → Each (Given-by (options .$groups)) (content .$mentions)
said-given options (mk s l r (mk p _) refl) =
  subst (Each (Given-by (options .$groups)))
    (sym (mentions-are (grammar-of options′) 0 (r .$items)))
    (each-flat (mentions (grammar-of options′)) (given options′) (r .$items) (p .$items))
  where options′ = with-setting options s l

-- The laws of canonical lines ---------------------------------------------------------------------

module Lines (options : Declared) (named : Each IsNamed (names-of (options .$groups))) where
  private
    gs = options .$groups

  -- The canonical line reads back with the same content, in each style and mode, and so keeps the
  -- counts.
  reads-back : ∀ {words} content → Says options words content → IsPlain gs content
    → ∀ s l → ReadsBack (with-setting options s l) content
  reads-back content said@(mk _ _ r (mk p kept) is) plain s l = mk
    (mk (canonical-reads (with-setting options s l) content all plain) (kept-by-mentions _ _
      (cong (λ c → c .$mentions) (sym is ∙ sym same)) 0 (signatures-of gs) kept))
    same
    where
      all = said-given options said
      same = same-content (with-setting options s l) content all

  one-reading-in-each : ∀ s l → OneReading (with-setting options s l)
  one-reading-in-each s l = Named.one-reading (with-setting options s l) named

  -- It says nothing else, since it has one reading in each style and mode.
  says-nothing-else : ∀ {words} content → Says options words content → IsPlain gs content
    → ∀ other → Says options (canonical-line gs content) other → other ≡ content
  says-nothing-else content said plain other (mk s l r (mk p _) is) =
    is ∙ cong (content-of (with-setting options s l))
      (one-reading-in-each s l _ r _ p (back .$reads .$reads)) ∙ back .$same
    where back = reads-back content said plain s l

  -- A canonical word is cut at its first `=` into a main name, which means the group, and a value.
  one-mention : ∀ m m′ → Sound gs m → Plain gs m → Sound gs m′ → Plain gs m′
    → canonical-word gs m ≡ canonical-word gs m′ → m ≡ m′
  one-mention (mk p v) (mk p′ v′) s plain s′ plain′ e
    with main-at gs p | main-at gs p′ | sym (cut-whole (main-at gs p) v plain)
      ∙ cong cut-at-equals (cons-tail (cons-tail e)) ∙ cut-whole (main-at gs p′) v′ plain′
  ... | name | .name | refl with some (sym s ∙ s′)
  ...   | refl = refl

  -- No canonical word is `--`, since no main name is empty.
  not-stop : ∀ m → Sound gs m → canonical-word gs m ≢ stop-word
  not-stop m sound e = filled-left (main-at gs (m .$place))
    (λ empty → None≢Some (empty-resolves-not (names-of gs) named)
      (cong (resolution (names-of gs)) (sym empty) ∙ sound))
    (cons-tail (cons-tail e))

  -- Sound and plain contents with equal lines are equal, even if no words say them.
  one-line : ∀ c c′ → IsSound gs c → IsPlain gs c → IsSound gs c′ → IsPlain gs c′
    → canonical-line gs c ≡ canonical-line gs c′ → c ≡ c′
  one-line (mk ms fs) (mk ms′ fs′) = go ms ms′
    where
      go : ∀ ms ms′ → Each (Sound gs) ms → Each (Plain gs) ms
        → Each (Sound gs) ms′ → Each (Plain gs) ms′
        → map (canonical-word gs) ms ++ stop-word ∷ fs
          ≡ map (canonical-word gs) ms′ ++ stop-word ∷ fs′ → says ms fs ≡ says ms′ fs′
      go [] [] _ _ _ _ refl = refl
      go [] (m ∷ ms′) _ _ (s , _) _ e = absurd (not-stop m s (sym (cons-head e)))
      go (m ∷ ms) [] (s , _) _ _ _ e = absurd (not-stop m s (cons-head e))
      go (m ∷ ms) (m′ ∷ ms′) (s , ss) (p , ps) (s′ , ss′) (p′ , ps′) e
        with one-mention m m′ s p s′ p′ (cons-head e) | go ms ms′ ss ps ss′ ps′ (cons-tail e)
      ... | refl | refl = refl

  sound : ∀ {words content} → Says options words content → IsSound gs content
  sound said = each-map (sound-mention gs) _ (said-given options said)

  one-line-one-content : OneLineOneContent options
  one-line-one-content words others content other said plain said′ plain′ =
    one-line content other (sound said) plain (sound said′) plain′ , cong (canonical-line gs)

  canonical-lines : ∀ {words} content → Says options words content → IsPlain gs content
    → HasCanonicalLine options content
  canonical-lines content said plain = mk (sound said) (reads-back content said plain) nothing-else
    (λ other said′ → cong (canonical-line gs) (nothing-else other said′))
    λ other sound′ plain′ →
      one-line other content sound′ plain′ (sound said) plain , cong (canonical-line gs)
    where nothing-else = says-nothing-else content said plain

  says-accepted : ∀ {words content} → IsAcceptedWith options words content
    → Says options words content
  says-accepted (mk r only kept is) = mk _ _ r (mk (only r .proj₂ refl) kept) is

  line-laws : KeepsLineLaws options
  line-laws words line (mk content accepted plain _) =
    canonical-lines content (says-accepted accepted) plain

  -- Equal contents give equal values --------------------------------------------------------------

  same-values : ∀ s l s′ l′ r r′
    → content-of (with-setting options s′ l′) r′ ≡ content-of (with-setting options s l) r
    → HaveSameValues (matches-of (with-setting options s l) r)
      (matches-of (with-setting options s′ l′) r′)
  same-values s l s′ l′ r r′ e =
    mk (same-of-name _ _ (cong (λ c → c .$mentions) e) gs) (cong (λ c → c .$free) e)

  -- Words with the content of accepted words keep the counts, and have the same values.
  one-content-holds-same : OneContentHoldsSame options
  one-content-holds-same words others r r′ _ (mk (mk r₀ only refl) kept) p q same
    with only r .proj₁ p
  ... | refl = Named.accept options named r′ (mk q
        (kept-by-mentions _ _ (cong (λ c → c .$mentions) (sym same)) 0 (signatures-of gs) kept))
    , same-values _ _ _ _ r r′ same

  -- A canonical line has the content of the original words, and so the same values.
  lines-read-again : LinesReadAgain options
  lines-read-again words _ _ (mk content accepted@(mk r only _ is) plain refl) (mk r₀ only₀ refl)
    s l with only r₀ .proj₁ (only₀ r₀ .proj₂ refl)
  ... | refl = mk _ (Named.accept (with-setting options s l) named _ (back .$reads))
    (same-values _ _ s l r (canonical-reading gs content) (back .$same ∙ is))
    where back = reads-back content (says-accepted accepted) plain s l
