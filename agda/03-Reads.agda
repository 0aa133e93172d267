{-# OPTIONS --safe --without-K #-}
-- `read`, a function of the definitions, finds each reading and each scan error that the relations
-- allow. So there is at most one of these.
--
-- Variables in all files:
--   g grammar    w word    ws, more words after it    i item    d dashes    n name    a argument
--   k kind of argument    bs flags    o last option of a cluster    t text or tail    r reading
--   f error    m mention    s style    l whether the mode is long-only
module 03-Reads where

open import Definitions
open import 01-Basics
open import 02-Characters

-- What the proofs assume of a grammar: the empty name, and names of one byte from 128 up, don't
-- resolve.
record Sane (g : Grammar) : Set where
  field
    no-empty : (g .$kind) [] ≡ None
    no-high : ∀ b → IsHigh b → (g .$kind) (b ∷ []) ≡ None
open Sane public

ReadResult : Set
ReadResult = Result Reading Fault

-- The result of the words that begin with this step.
after : Grammar → Step → List Text → ReadResult
after g s ws = after-step s (read-both g ws .proj₁) (read-both g ws .proj₂)

-- After a step that takes an item, reading goes on after the words of its argument.
taken : ∀ g i a more
  → after g (takes i a) (argument-words a ++ more) ≡ with-items (i ∷ []) (read g more)
taken g i none more = refl
taken g i (attached x) more = refl
taken g i (separate x) more = refl

-- Words in long form ------------------------------------------------------------------------------

cut-whole : ∀ n a → holds-equals n ≡ false → cut-at-equals (n ++ with-equals a) ≡ (n , a)
cut-whole [] None e = refl
cut-whole [] (Some a) e = refl
cut-whole (c ∷ n) a e with or-false {eqb c equals-sign} e
... | c-is , n-is rewrite c-is | cut-whole n a n-is = refl

may-precede : ∀ lo d n a → MayPrecede lo d n → MayPrecede lo d (n ++ with-equals a)
may-precede lo two n a p = tt
may-precede lo one [] None p = p
may-precede lo one [] (Some a) (p , q) = p , refl
may-precede lo one (c ∷ n) a p = p

-- A text that begins with a character's bytes has that first character.
first-is : ∀ c more {t char} → encode c ≡ char → t ≡ char ++ more → first-char t ≡ char
first-is c more refl refl rewrite decoded c more = refl

module _ (g : Grammar) where

  -- This is the word's step, and a loop gives next what this step gives. That isn't so in short
  -- form, because a loop gives the options of a cluster one by one.
  HasStep : Text → List Text → Step → Set
  HasStep w ws s = (step g w ws ≡ s)
    × (next-word g w (mk [] ws None) ≡ next-by-step g (mk [] ws None) s)

  long-form : ∀ d t ws → MayPrecede (g .$long-only) d t → t ≢ []
    → HasStep (dash-text d ++ t) ws (long-step g d t ws)
  long-form d [] ws p filled = absurd (filled refl)
  long-form two (c ∷ t) ws p filled = refl , refl
  long-form one (c ∷ t) ws (mode , no-dash) filled rewrite no-dash | mode = refl , refl

  long-form-step : ∀ d n a ws → MayPrecede (g .$long-only) d n → holds-equals n ≡ false
    → n ++ with-equals a ≢ []
    → HasStep (long-word d n a) ws (long-name-step ((g .$kind) n) d n a ws)
  long-form-step d n a ws p e filled = subst (HasStep (long-word d n a) ws)
    (cong (λ (name , a) → long-name-step ((g .$kind) name) d name a ws) (cut-whole n a e))
    (long-form d (n ++ with-equals a) ws (may-precede _ d n a p) filled)

  -- Words in short form ---------------------------------------------------------------------------

  short-form : ∀ t ws → g .$long-only ≡ false → begins-with-dash t ≡ false → t ≢ []
    → (step g (dash ∷ t) ws ≡ cluster-step g [] t ws)
    × (next-word g (dash ∷ t) (mk [] ws None) ≡ next-option g t ws None)
  short-form [] ws mode no-dash filled = absurd (filled refl)
  short-form (c ∷ t) ws mode no-dash filled rewrite no-dash | mode = refl , refl

  flags-read : ∀ front bs t ws → Each (IsFlag g) bs
    → cluster-step g front (bs ++ t) ws ≡ cluster-step g (front ++ bs) t ws
  flags-read front [] t ws _ rewrite ++-nil front = refl
  flags-read front (b ∷ bs) t ws (flag , all) rewrite flag | sym (++-assoc front (b ∷ []) bs) =
    flags-read (front ++ b ∷ []) bs t ws all

  -- If a text begins with flags, the step takes them, and goes on after them.
  after-flags : ∀ bs t ws → g .$long-only ≡ false → begins-with-dash (bs ++ t) ≡ false
    → bs ++ t ≢ [] → Each (IsFlag g) bs → step g (dash ∷ bs ++ t) ws ≡ cluster-step g bs t ws
  after-flags bs t ws mode no-dash filled all =
    short-form (bs ++ t) ws mode no-dash filled .proj₁ ∙ flags-read [] bs t ws all

  -- Each valid item is what the step takes --------------------------------------------------------

  free-form : ∀ w ws {s} → is-dashed w ≡ false → g .$style ≡ s
    → HasStep w ws (free-step s w ws)
  free-form [] ws plain refl = refl , refl
  free-form (c ∷ []) ws plain refl = refl , refl
  free-form (c ∷ d ∷ t) ws plain refl rewrite plain = refl , refl

  long-chosen : ∀ k n a more → FitsLong k a
    → chosen-long k n (attached-argument a) (argument-words a ++ more) ≡ Ok a
  long-chosen Yes n (attached x) more fits = refl
  long-chosen Yes n (separate x) more fits = refl
  long-chosen No n none more fits = refl
  long-chosen Maybe n none more fits = refl
  long-chosen Maybe n (attached x) more fits = refl

  end-chosen : ∀ bs o a k more {s} → (g .$kind) (o ∷ []) ≡ Some k → FitsEnd k a
    → (a ≡ none → EndsOrIsDashed more)
    → let kind = (g .$kind) (o ∷ []) ; t = unwrap-or (attached-argument a) [] in
      (byte-step kind bs o t (argument-words a ++ more) s ≡ takes (cluster bs (ends-in o a)) a)
      × (names-after kind t ≡ [])
  end-chosen bs o none .Maybe [] e refl _ rewrite e = refl , refl
  end-chosen bs o none .Maybe (w ∷ ws) e refl followed rewrite e | followed refl = refl , refl
  end-chosen bs o (attached _) No more e (no , _) _ = absurd (no refl)
  end-chosen bs o (attached []) k more e (_ , filled) _ = absurd (filled refl)
  end-chosen bs o (attached (x ∷ t)) Yes more e fits _ rewrite e = refl , refl
  end-chosen bs o (attached (x ∷ t)) Maybe more e fits _ rewrite e = refl , refl
  end-chosen bs o (separate w) No more e (no , _) _ = absurd (no refl)
  end-chosen bs o (separate w) Yes more e fits _ rewrite e = refl , refl
  end-chosen bs o (separate w) Maybe more e (_ , plain) _ rewrite e | plain refl = refl , refl

  long-taken : ∀ d n a more → Sane g → IsLawfulItem g (long d n a)
    → HasStep (long-word d n (attached-argument a)) (argument-words a ++ more)
      (takes (long d n a) a)
  long-taken d n a more sane (mk p e (k , r , fits)) = subst
    (HasStep (long-word d n (attached-argument a)) _)
    (cong (λ k → long-name-step k d n (attached-argument a) (argument-words a ++ more)) r
    ∙ cong (chosen-step (long d n)) (long-chosen k n a more fits))
    (long-form-step d n (attached-argument a) _ p e
      (filled-left n λ { refl → None≢Some (sane .no-empty) r }))

  -- An item's first step takes it, and `read` goes on after its words.
  item-read : ∀ i more → Sane g → IsLawfulItem g i → (is-bare i ≡ true → EndsOrIsDashed more)
    → read g (item-words i ++ more) ≡ with-items (i ∷ []) (read g more)
  item-read (free w) more sane (plain , style) _ =
    cong (λ s → after g s more) (free-form w more plain style .proj₁)
  item-read (long d n a) more sane lawful _ =
    cong (λ s → after g s (argument-words a ++ more)) (long-taken d n a more sane lawful .proj₁)
    ∙ taken g (long d n a) a more
  item-read (cluster bs flags) more sane (mk mode no-dash all filled) _ =
    cong (λ s → after g s more) (after-flags bs [] more mode no-dash (filled-left bs filled) all)
  item-read (cluster bs (ends-in o a)) more sane (mk mode no-dash all (k , e , fits)) followed =
    cong (λ s → after g s (argument-words a ++ more))
      (after-flags bs _ _ mode no-dash (++-filled bs) all
      ∙ end-chosen bs o a k more e fits (λ { refl → followed refl }) .proj₁)
    ∙ taken g (cluster bs (ends-in o a)) a more

  tail-read : ∀ t → IsLawfulTail g t → read g (tail-words t) ≡ Ok (mk [] t)
  tail-read no-tail _ = refl
  tail-read (stop ws) _ = refl
  tail-read (rest (w ∷ ws)) (plain , style) =
    cong (λ s → after g s ws) (free-form w ws plain style .proj₁)

  -- A reading is what `read` finds, item by item. So there is at most one.
  reading-read : ∀ {r words} → Sane g → IsReading g r words → read g words ≡ Ok r
  reading-read {mk items t} sane (mk refl all lawful followed) = go items all followed
    where
      go : ∀ items → Each (IsLawfulItem g) items → AreWellFollowed items (tail-words t)
        → read g (spelled-all items (tail-words t)) ≡ Ok (mk items t)
      go [] all followed = tail-read t lawful
      go (i ∷ items) (l , all) (f , followed) =
        item-read i _ sane l f ∙ cong (with-items (i ∷ [])) (go items all followed)

  -- Words with an error ---------------------------------------------------------------------------

  -- A word has an error. In short form, the error is at the first byte after flags.
  data Fails (w : Text) (ws : List Text) (f : Fault) : Set where
    at-word : HasStep w ws (faults f) → Fails w ws f
    at-byte : ∀ b {t} → HasAfterFlags g w (b ∷ t)
      → (∀ bs s → byte-step ((g .$kind) (b ∷ [])) bs b t ws s ≡ faults f) → Fails w ws f

  fails-step : ∀ {w ws f} → Fails w ws f → step g w ws ≡ faults f
  fails-step (at-word is) = is .proj₁
  fails-step (at-byte b (mk bs mode refl no-dash all) e) =
    after-flags bs _ _ mode no-dash (++-filled bs) all ∙ e bs _

  long-fault : ∀ {w ws n a k} → (lf : IsLongForm g w n a) → (g .$kind) n ≡ k
    → HasStep w ws (long-name-step k (lf .$dashes) n a ws)
  long-fault {n = n} {a} (mk d p e refl filled) refl = long-form-step d n a _ p e
    λ empty → filled (cong (dash-text d ++_) empty ∙ ++-nil (dash-text d))

  unknown-fails : ∀ {w ws} b {t char} → HasAfterFlags g w (b ∷ t) → (g .$kind) (b ∷ []) ≡ None
    → first-char (b ∷ t) ≡ char → Fails w ws (unrecognized-option char)
  unknown-fails b hf absent refl = at-byte b hf λ bs s → cong (λ k → byte-step k bs b _ _ s) absent

  -- Each error of `IsFaultAt` is such an error.
  fault-fails : ∀ {w ws f} → Sane g → IsFaultAt g w ws f → Fails w ws f
  fault-fails sane (unknown-name n a lf absent) = at-word (long-fault lf absent)
  fault-fails sane (unwanted-argument n a lf no) = at-word (long-fault lf no)
  fault-fails sane (long-unfinished n lf yes refl) = at-word (long-fault lf yes)
  fault-fails sane (short-unfinished o hf yes refl) =
    at-byte o hf λ bs s → cong (λ k → byte-step k bs o [] [] s) yes
  fault-fails sane (unknown-byte b more low hf absent) =
    unknown-fails b hf absent (first-is b more (narrow b (<→ltb low)) refl)
  fault-fails {w} {ws} sane (wide-character c more _ several hf) =
    go (wide c (not-narrow c several))
    where
      go : Wide c → Fails w ws (unrecognized-option (encode c))
      go (b , b₂ , bs , is , high) = unknown-fails b
        (subst (λ t → HasAfterFlags g w (t ++ more)) is hf)
        (sane .no-high b (subst (Each IsHigh) is high .proj₁))
        (first-is c more refl (cong (_++ more) (sym is)))

  -- A word whose step is an error is dashed.
  fault-dashed : ∀ w ws {f} → step g w ws ≡ faults f → is-dashed w ≡ true
  fault-dashed w ws e with split (is-dashed w)
  ... | inl dashed = dashed
  ... | inr plain with g .$style | sym (free-form w ws plain refl .proj₁) ∙ e
  ...   | FloatingFrees | ()
  ...   | StopAtFirstFree | ()

-- Whole lines -------------------------------------------------------------------------------------

spelled-then : ∀ items more → spelled-all items [] ++ more ≡ spelled-all items more
spelled-then [] more = refl
spelled-then (i ∷ items) more =
  ++-assoc (item-words i) _ more ∙ cong (item-words i ++_) (spelled-then items more)

-- What may follow items depends on their first word, if there is one.
ends-same : ∀ items {more more′} → (EndsOrIsDashed more → EndsOrIsDashed more′)
  → EndsOrIsDashed (spelled-all items more) → EndsOrIsDashed (spelled-all items more′)
ends-same [] h e = h e
ends-same (free _ ∷ items) h e = e
ends-same (long _ _ _ ∷ items) h e = e
ends-same (cluster _ _ ∷ items) h e = e

-- `read` finds each scan error: it takes the items before the word, and the word's step is the
-- error.
fault-read : ∀ {g words f} → Sane g → IsScanFault g words f → read g words ≡ Err f
fault-read {g} {f = f} sane (mk _ w ws items refl (mk refl all _ followed) fault) =
  cong (read g) (spelled-then items (w ∷ ws)) ∙ go items all followed
  where
    the-step = fails-step g (fault-fails g sane fault)
    go : ∀ items → Each (IsLawfulItem g) items → AreWellFollowed items []
      → read g (spelled-all items (w ∷ ws)) ≡ Err f
    go [] _ _ = cong (λ s → after g s ws) the-step
    go (i ∷ items) (l , all) (before , followed) =
      item-read g i _ sane l
        (λ bare → ends-same items (λ _ → fault-dashed g w ws the-step) (before bare))
      ∙ cong (with-items (i ∷ [])) (go items all followed)
