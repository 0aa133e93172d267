{-# OPTIONS --safe --without-K #-}
-- The laws of readings: other spellings of an item, joined lines, free words, and positions.
module 08-Laws where

open import Definitions
open import 01-Basics
open import 03-Reads
open import 06-Accepted using (one-reading-of)
open import 07-Canonical using (mentions-in; mentions-are; order-parts)

-- Lists of items in parts -------------------------------------------------------------------------

spelled-app : ∀ xs ys more → spelled-all (xs ++ ys) more ≡ spelled-all xs (spelled-all ys more)
spelled-app [] ys more = refl
spelled-app (x ∷ xs) ys more = cong (item-words x ++_) (spelled-app xs ys more)

followed-split : ∀ xs ys more → AreWellFollowed (xs ++ ys) more
  → AreWellFollowed xs (spelled-all ys more) × AreWellFollowed ys more
followed-split [] ys more f = tt , f
followed-split (x ∷ xs) ys more (f , fs) with followed-split xs ys more fs
... | a , b = ((λ bare → subst EndsOrIsDashed (spelled-app xs ys more) (f bare)) , a) , b

followed-join : ∀ xs ys more → AreWellFollowed xs (spelled-all ys more) → AreWellFollowed ys more
  → AreWellFollowed (xs ++ ys) more
followed-join [] ys more _ g = g
followed-join (x ∷ xs) ys more (f , fs) g =
  (λ bare → subst EndsOrIsDashed (sym (spelled-app xs ys more)) (f bare))
  , followed-join xs ys more fs g

followed-before : ∀ xs {more more′} → (EndsOrIsDashed more → EndsOrIsDashed more′)
  → AreWellFollowed xs more → AreWellFollowed xs more′
followed-before [] h _ = tt
followed-before (x ∷ xs) h (f , fs) = (λ bare → ends-same xs h (f bare)) , followed-before xs h fs

free-app : ∀ xs ys → free-items (xs ++ ys) ≡ free-items xs ++ free-items ys
free-app [] ys = refl
free-app (free w ∷ xs) ys = cong (w ∷_) (free-app xs ys)
free-app (long _ _ _ ∷ xs) ys = free-app xs ys
free-app (cluster _ _ ∷ xs) ys = free-app xs ys

count-app : ∀ xs ys → word-count (xs ++ ys) ≡ word-count xs + word-count ys
count-app xs ys = cong length (spelled-app xs ys [] ∙ sym (spelled-then xs (spelled-all ys [])))
  ∙ length-++ (spelled-all xs []) _

-- Positions ---------------------------------------------------------------------------------------

-- The positions of items after b words. All mentions of an item have the item's position.
places : Grammar → ℕ → List Item → List ℕ
places g b [] = []
places g b (x ∷ xs) = map (λ _ → b) (mentions g x) ++ places g (b + word-count (x ∷ [])) xs

places-are : ∀ g b items
  → map (λ o → o .$position) (occurrences-after b g items) ≡ places g b items
places-are g b [] = refl
places-are g b (x ∷ xs) = map-++ _ (map (at-position b) (mentions g x)) _
  ∙ cong₂ _++_ (here (mentions g x)) (places-are g (b + word-count (x ∷ [])) xs)
  where
    here : ∀ ms → map (λ o → o .$position) (map (at-position b) ms) ≡ map (λ _ → b) ms
    here [] = refl
    here (m ∷ ms) = cong (b ∷_) (here ms)

module _ (g : Grammar) where

  low : ∀ {p b} → b ≤ p → one-higher-after p b ≡ b
  low le rewrite <→ltb (s≤s le) = refl

  moved : ∀ p {b c} (ms : List Mention) more → one-higher-after p b ≡ c
    → map (one-higher-after p) (map (λ _ → b) ms ++ more)
      ≡ map (λ _ → c) ms ++ map (one-higher-after p) more
  moved p [] more e = refl
  moved p (m ∷ ms) more refl = cong (_ ∷_) (moved p ms more refl)

  high : ∀ {p} b xs → p < b → map (one-higher-after p) (places g b xs) ≡ places g (suc b) xs
  high b [] lt = refl
  high {p} b (x ∷ xs) lt = moved p (mentions g x) _
      (cong (λ low → if low then b else b + 1) (>→leb lt) ∙ +-comm b 1)
    ∙ cong (map (λ _ → suc b) (mentions g x) ++_) (high _ xs (≤-more _ lt))

  -- If an item takes one word more, all later positions are one higher.
  apart : ∀ {p} b front {shorter longer} back → mentions g longer ≡ mentions g shorter
    → word-count (shorter ∷ []) ≡ 1 → word-count (longer ∷ []) ≡ 2 → p ≡ b + word-count front
    → places g b (front ++ longer ∷ back)
      ≡ map (one-higher-after p) (places g b (front ++ shorter ∷ back))
  apart b [] {shorter} back same one-word two-words refl
    rewrite same | one-word | two-words | +-suc b 1 =
    cong (map (λ _ → b) (mentions g shorter) ++_)
      (sym (high (b + 1) back (subst (_≤ b + 1) (+-suc b 0) ≤-refl)))
    ∙ sym (moved _ (mentions g shorter) _ (low (≤-more 0 ≤-refl)))
  apart b (x ∷ front) back same one-word two-words at =
    cong (map (λ _ → b) (mentions g x) ++_) (apart _ front back same one-word two-words
      (at ∙ cong (b +_) (count-app (x ∷ []) front) ∙ sym (+-assoc b _ _)))
    ∙ sym (moved _ (mentions g x) _ (low (subst (b ≤_) (sym at) (≤-more _ ≤-refl))))

-- One item for others -----------------------------------------------------------------------------

-- If a function has the same value for an item and for the others, it has the same value for lists
-- with this item and lists with the others in its place.
in-place : ∀ {A : Set} (h : List Item → List A) → (∀ xs ys → h (xs ++ ys) ≡ h xs ++ h ys)
  → ∀ front i others back → h others ≡ h (i ∷ [])
  → h (front ++ (others ++ back)) ≡ h (front ++ i ∷ back)
in-place h app front i others back same = app front (others ++ back)
  ∙ cong (h front ++_) (app others back ∙ cong (_++ h back) same ∙ sym (app (i ∷ []) back))
  ∙ sym (app front (i ∷ back))

positions : Grammar → List Item → List ℕ
positions g items = map (λ o → o .$position) (occurrences-after 0 g items)

-- The others may replace the item, whatever is before and after it.
record Replaces (g : Grammar) (i : Item) (others : List Item) : Set where
  constructor mk
  field
    lawful : Each (IsLawfulItem g) others
    mentions-same : mentions-in g others ≡ mentions-in g (i ∷ [])
    free-same : free-items others ≡ free-items (i ∷ [])
    dashed : ∀ more → EndsOrIsDashed (spelled-all others more)
    followed : ∀ more → (is-bare i ≡ true → EndsOrIsDashed more) → AreWellFollowed others more

module _ (g : Grammar) (sane : Sane g) where

  -- A reading in which other items replace one item reads alike.
  respell : ∀ i others Alike → (IsLawfulItem g i → Replaces g i others)
    → (∀ front back → Alike (word-count front) (positions g (front ++ i ∷ back))
      (positions g (front ++ (others ++ back))))
    → Respells g i others Alike
  respell i others Alike replaces alike front back t _ (mk refl all tail fs)
    with each-parts front all | followed-split front (i ∷ back) (tail-words t) fs
  ... | all-front , l , all-back | fs-front , f , fs-back = mk
    (mk refl (each-++ front all-front (each-++ others lawful all-back)) tail
      (followed-join front (others ++ back) _ (followed-before front (λ _ →
          subst EndsOrIsDashed (sym (spelled-app others back (tail-words t))) (dashed _)) fs-front)
        (followed-join others back _ (followed _ f) fs-back)))
    (mentions-are g 0 (front ++ (others ++ back))
      ∙ in-place (mentions-in g) (flat-map-++ (mentions g)) front i others back mentions-same
      ∙ sym (mentions-are g 0 (front ++ (i ∷ back))))
    (cong (_++ tail-frees t) frees)
    (cong (λ fs → trailing-after (length fs) t) frees)
    (alike front back)
    where
      open Replaces (replaces l)
      frees = in-place free-items free-app front i others back free-same

  long-dashed : ∀ d n a {k} → (g .$kind) n ≡ Some k
    → ∀ more → EndsOrIsDashed (item-words (long d n a) ++ more)
  long-dashed d [] a e more = absurd (None≢Some (sane .no-empty) e)
  long-dashed one (c ∷ n) a e more = refl
  long-dashed two (c ∷ n) a e more = refl

  cluster-dashed : ∀ bs end → bs ++ end-text end ≢ []
    → ∀ more → EndsOrIsDashed (item-words (cluster bs end) ++ more)
  cluster-dashed bs end f more with bs ++ end-text end
  ... | [] = absurd (f refl)
  ... | x ∷ t = refl

  -- If each of two items may replace the other, and one has a word more, they are one word apart.
  one-word-apart : ∀ shorter longer
    → (IsLawfulItem g shorter → Replaces g shorter (longer ∷ []))
    → (IsLawfulItem g longer → Replaces g longer (shorter ∷ []))
    → mentions g longer ≡ mentions g shorter
    → word-count (shorter ∷ []) ≡ 1 → word-count (longer ∷ []) ≡ 2
    → AreOneWordApart g shorter longer
  one-word-apart shorter longer to from same one-word two-words =
    mk (respell _ _ AreHigherAfter to higher)
      (respell _ _ (λ p old new → AreHigherAfter p new old) from higher)
    where
      higher : ∀ front back → positions g (front ++ longer ∷ back)
        ≡ map (one-higher-after (word-count front)) (positions g (front ++ shorter ∷ back))
      higher front back = places-are g 0 (front ++ longer ∷ back)
        ∙ apart g 0 front back same one-word two-words refl
        ∙ cong (map (one-higher-after _)) (sym (places-are g 0 (front ++ shorter ∷ back)))

  long-law : LongAttachedOrSeparate g
  long-law = mk λ d n x yes → one-word-apart _ _
    (replaces d n (attached x) (separate x) yes refl tt)
    (replaces d n (separate x) (attached x) yes refl tt) refl refl refl
    where
      replaces : ∀ d n a a′ → (g .$kind) n ≡ Some Yes → value-of a ≡ value-of a′ → FitsLong Yes a′
        → IsLawfulItem g (long d n a) → Replaces g (long d n a) (long d n a′ ∷ [])
      replaces d n a a′ yes same fits (mk p e _) = mk (mk p e (Yes , yes , fits) , tt)
        (cong (λ v → mention-of g n v ∷ []) (sym same)) refl (long-dashed d n a′ yes)
        λ more _ → (λ ()) , tt

  dash-law : OneDashOrTwo g
  dash-law = mk λ d d′ n a mode plain → respell _ _ _ (replaces d d′ n a mode plain)
    λ front back → cong (map (λ o → o .$position)) (same d d′ n a 0 front back)
    where
      precedes : ∀ d n → g .$long-only ≡ true → begins-with-dash n ≡ false
        → MayPrecede (g .$long-only) d n
      precedes one n mode plain = mode , plain
      precedes two n mode plain = tt
      replaces : ∀ d d′ n a → g .$long-only ≡ true → begins-with-dash n ≡ false
        → IsLawfulItem g (long d n a) → Replaces g (long d n a) (long d′ n a ∷ [])
      replaces d d′ n a mode plain (mk _ e (k , r , fits)) =
        mk (mk (precedes d′ n mode plain) e (k , r , fits) , tt) refl refl (long-dashed d′ n a r)
          λ more _ → (λ ()) , tt
      same : ∀ d d′ n a b front back → occurrences-after b g (front ++ long d′ n a ∷ back)
        ≡ occurrences-after b g (front ++ long d n a ∷ back)
      same d d′ n a b [] back = refl
      same d d′ n a b (x ∷ front) back =
        cong (map (at-position b) (mentions g x) ++_) (same d d′ n a _ front back)

  short-law : ShortAttachedOrSeparate g
  short-law = mk λ bs o x yes filled → one-word-apart _ _
    (replaces bs o (attached x) (separate x) yes refl ((λ ()) , λ ()) refl)
    (replaces bs o (separate x) (attached x) yes refl ((λ ()) , filled) refl) refl refl refl
    where
      starts : ∀ (bs : List ℕ) o (x y : Text) → begins-with-dash (bs ++ o ∷ x) ≡ false
        → begins-with-dash (bs ++ o ∷ y) ≡ false
      starts [] o x y e = e
      starts (b ∷ bs) o x y e = e
      replaces : ∀ bs o a a′ → (g .$kind) (o ∷ []) ≡ Some Yes → value-of a ≡ value-of a′
        → FitsEnd Yes a′ → is-bare (cluster bs (ends-in o a′)) ≡ false
        → IsLawfulItem g (cluster bs (ends-in o a))
        → Replaces g (cluster bs (ends-in o a)) (cluster bs (ends-in o a′) ∷ [])
      replaces bs o a a′ yes same fits not-bare (mk mode plain each _) = mk
        (mk mode (starts bs o _ _ plain) each (Yes , yes , fits) , tt)
        (cong (λ v → (map _ bs ++ mention-of g (o ∷ []) v ∷ []) ++ []) (sym same))
        refl (cluster-dashed bs (ends-in o a′) (++-filled bs))
        λ more _ → (λ bare → absurd (true≢false bare not-bare)) , tt

  split-law : ClusterSplits g
  split-law = mk λ b bs end filled plain → respell _ _ _ (replaces b bs end filled plain) λ _ _ → tt
    where
      ends-well : ∀ {b bs} end → bs ++ end-text end ≢ [] → IsLawfulEnd g (b ∷ bs) end
        → IsLawfulEnd g bs end
      ends-well flags filled _ refl = filled refl
      ends-well (ends-in o a) filled l = l
      bare-same : ∀ b bs end → is-bare (cluster bs end) ≡ is-bare (cluster (b ∷ bs) end)
      bare-same b bs flags = refl
      bare-same b bs (ends-in o none) = refl
      bare-same b bs (ends-in o (attached x)) = refl
      bare-same b bs (ends-in o (separate x)) = refl
      replaces : ∀ b bs end → bs ++ end-text end ≢ []
        → begins-with-dash (bs ++ end-text end) ≡ false → IsLawfulItem g (cluster (b ∷ bs) end)
        → Replaces g (cluster (b ∷ bs) end) (cluster (b ∷ []) flags ∷ cluster bs end ∷ [])
      replaces b bs end filled plain (mk mode first (flag , each) last) = mk
        (mk mode first (flag , tt) (λ ()) , mk mode plain each (ends-well end filled last) , tt)
        refl refl (λ more → refl)
        λ more f → (λ ()) , (λ bare → f (sym (bare-same b bs end) ∙ bare)) , tt

-- Joined lines ------------------------------------------------------------------------------------

extended : ∀ items more → is-last-bare items ≡ false → AreWellFollowed items []
  → AreWellFollowed items more
extended [] more e _ = tt
extended (x ∷ []) more e _ = (λ bare → absurd (true≢false bare e)) , tt
extended (x ∷ y ∷ items) more e (f , fs) =
  (λ bare → begun y (f bare)) , extended (y ∷ items) more e fs
  where
    begun : ∀ y → EndsOrIsDashed (spelled-all (y ∷ items) [])
      → EndsOrIsDashed (spelled-all (y ∷ items) more)
    begun (free _) e = e
    begun (long _ _ _) e = e
    begun (cluster _ _) e = e

-- Joined, two readings are a reading: no free word follows a bare cluster.
joined : ∀ g first second {words more} → IsReading g first words → first .$tail ≡ no-tail
  → is-last-bare (first .$items) ≡ false → IsReading g second more
  → IsReading g (joined-reading first second) (words ++ more)
joined g (mk items _) (mk items′ t) (mk refl all _ fs) refl last (mk refl all′ tail fs′) = mk
  (spelled-app items items′ (tail-words t)
    ∙ sym (spelled-then items (spelled-all items′ (tail-words t))))
  (each-++ items all all′) tail
  (followed-join items items′ (tail-words t) (extended items _ last fs) fs′)

content-of-both : ∀ g first second → first .$tail ≡ no-tail
  → HasContentOfBoth g first second (joined-reading first second)
content-of-both g (mk items _) (mk items′ t) refl = mk
  (mentions-are g 0 (items ++ items′) ∙ flat-map-++ (mentions g) items items′
    ∙ sym (cong₂ _++_ (mentions-are g 0 items) (mentions-are g 0 items′)))
  (cong (_++ tail-frees t) (free-app items items′) ∙ ++-assoc (free-items items) _ _
    ∙ cong (_++ (free-items items′ ++ tail-frees t)) (sym (++-nil (free-items items))))

-- The joined reading is the only one, so each reading of the joined lines has the content of both.
lines-law : ∀ g → Sane g → LinesCompose g
lines-law g sane = mk λ first second words more p end last q →
  joined g first second p end last q , λ whole r → subst (HasContentOfBoth g first second)
    (one-reading-of g sane _ _ whole (joined g first second p end last q) r)
    (content-of-both g first second end)

-- Free words --------------------------------------------------------------------------------------

trailing-law : ∀ g → TrailingStartIsAfterStop g
trailing-law g = mk λ r words start _ e → go r start e
  where
    more-than : ∀ (xs : List Text) {w ws} → length xs < length (xs ++ w ∷ ws)
    more-than [] = s≤s z≤n
    more-than (x ∷ xs) = s≤s (more-than xs)
    go : ∀ r start → trailing-start r ≡ Some start → IsAfterStop r start
    go (mk items (stop (w ∷ ws))) _ refl =
      mk (more-than (free-items items)) (cong stop (sym (drop-all (free-items items) (w ∷ ws))))

frees-law : ∀ g → FreeWordsAreSubsequence g
frees-law g = mk λ { r _ (mk refl _ _ _) → go (r .$items) (r .$tail) }
  where
    kept : ∀ words → IsSubsequence words words
    kept [] = [] , refl
    kept (w ∷ ws) with kept ws
    ... | these , e = true ∷ these , cong (w ∷_) e
    left-out : ∀ skipped {texts words} → IsSubsequence texts words
      → IsSubsequence texts (skipped ++ words)
    left-out [] p = p
    left-out (w ∷ ws) p with left-out ws p
    ... | these , e = false ∷ these , e
    go : ∀ items t
      → IsSubsequence (free-items items ++ tail-frees t) (spelled-all items (tail-words t))
    go [] no-tail = [] , refl
    go [] (stop ws) = left-out (stop-word ∷ []) (kept ws)
    go [] (rest ws) = kept ws
    go (free w ∷ items) t with go items t
    ... | these , e = true ∷ these , cong (w ∷_) e
    go (long d n a ∷ items) t = left-out (item-words (long d n a)) (go items t)
    go (cluster bs end ∷ items) t = left-out (item-words (cluster bs end)) (go items t)

-- Positions are words -----------------------------------------------------------------------------

positions-law : ∀ g → PositionsAreWords g
positions-law g = mk λ { (mk items t) _ o (mk refl _ _ _) c → go t [] items o c }
  where
    found-at : ∀ b ms o → Contains (map (at-position b) ms) o → o .$position ≡ b
    found-at b (m ∷ ms) _ (zero , p , refl) = refl
    found-at b (m ∷ ms) o (suc k , s≤s p , e) = found-at b ms o (k , p , e)
    first-of : ∀ front i words → slice-get (spelled-all front [] ++ (item-words i ++ words))
      (word-count front) ≡ slice-get (item-words i) 0
    first-of front (free w) words = get-all (spelled-all front []) w words
    first-of front (long d n a) words = get-all (spelled-all front []) _ _
    first-of front (cluster bs end) words = get-all (spelled-all front []) _ _
    order-app : ∀ xs ys → order-of-items g (xs ++ ys) ≡ order-of-items g xs ++ order-of-items g ys
    order-app [] ys = refl
    order-app (x ∷ xs) ys =
      cong (given-by g x ++_) (order-app xs ys) ∙ sym (++-assoc (given-by g x) _ _)
    in-order : ∀ t front i items → given-by g i ≡ map given-option (mentions g i)
      → FollowsItems g (order-of-reading g (mk (front ++ i ∷ items) t)) front i
    in-order t front i items is = mk (order-of-items g front) _
      (cong (_++ map free-word (tail-frees t)) (order-app front (i ∷ items))
        ∙ ++-assoc (order-of-items g front) _ _ ∙ cong (order-of-items g front ++_)
          (++-assoc (given-by g i) _ _ ∙ cong (_++ _) is))
      (cong options-in (sym nil) ∙ order-parts g front [] .proj₁ ∙ ++-nil _)
      (cong frees-in (sym nil) ∙ order-parts g front [] .proj₂ ∙ ++-nil _)
      where nil = ++-nil (order-of-items g front)
    of-item : ∀ i {o b} → Contains (map (at-position b) (mentions g i)) o
      → given-by g i ≡ map given-option (mentions g i)
    of-item (free w) (_ , () , _)
    of-item (long d n a) _ = refl
    of-item (cluster bs end) _ = refl
    go : ∀ t front items o → Contains (occurrences-after (word-count front) g items) o
      → BelongsToItem g (mk (front ++ items) t) (spelled-all (front ++ items) (tail-words t)) o
    go t front [] o (_ , () , _)
    go t front (i ∷ items) o c
      with contains-++ (map (at-position (word-count front)) (mentions g i)) _ o c
    ... | inl here = mk front i items refl here
      (cong₂ slice-get (spelled-app front (i ∷ items) (tail-words t)
          ∙ sym (spelled-then front (spelled-all (i ∷ items) (tail-words t))))
        (found-at (word-count front) (mentions g i) o here)
      ∙ first-of front i (spelled-all items (tail-words t)))
      (in-order t front i items (of-item i here))
    ... | inr later = subst (λ is → BelongsToItem g (mk is t) (spelled-all is (tail-words t)) o)
      (++-assoc front (i ∷ []) items)
      (go t (front ++ i ∷ []) items o (subst (λ n → Contains (occurrences-after n g items) o)
        (sym (count-app front (i ∷ []))) later))

keeps-reading-laws : ∀ g → Sane g → KeepsReadingLaws g
keeps-reading-laws g sane = mk (long-law g sane) (short-law g sane) (split-law g sane)
  (dash-law g sane) (lines-law g sane) (trailing-law g) (frees-law g) (positions-law g)
