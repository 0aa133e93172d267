{-# OPTIONS --safe --without-K #-}
-- Words have a reading or an error, which `read` finds. If they are UTF-8, it is a scan error.
module 04-Decided where

open import Definitions
open import 01-Basics
open import 02-Characters
open import 03-Reads

-- A text in long form is a name without `=` and, if it contains `=`, an argument.
cut-parts : ∀ t → (t ≡ cut-at-equals t .proj₁ ++ with-equals (cut-at-equals t .proj₂))
  × (holds-equals (cut-at-equals t .proj₁) ≡ false)
cut-parts [] = refl , refl
cut-parts (c ∷ t) with eqb c equals-sign in e
... | true = cong (_∷ t) (eqb→≡ c equals-sign e) , refl
... | false rewrite e = cong (c ∷_) (cut-parts t .proj₁) , cut-parts t .proj₂

precedes-name : ∀ lo d n x → MayPrecede lo d (n ++ x) → MayPrecede lo d n
precedes-name lo two n x p = tt
precedes-name lo one [] x (p , q) = p , refl
precedes-name lo one (c ∷ n) x p = p

not-dashes : ∀ d {t} → t ≢ [] → dash-text d ++ t ≢ dash-text d
not-dashes d {[]} f _ = f refl
not-dashes one {x ∷ t} f ()
not-dashes two {x ∷ t} f ()

module _ (g : Grammar) (sane : Sane g) where

  -- A word begins an item of one or two words, is the first word of a tail, or has an error. In
  -- UTF-8, that is an error of `IsFaultAt`.
  data View (w : Text) (ws : List Text) : Set where
    one-word : ∀ i → item-words i ≡ w ∷ [] → IsLawfulItem g i
      → (is-bare i ≡ true → EndsOrIsDashed ws) → View w ws
    two-words : ∀ i v vs → ws ≡ v ∷ vs → item-words i ≡ w ∷ v ∷ [] → IsLawfulItem g i
      → (is-bare i ≡ true → EndsOrIsDashed vs) → View w ws
    ends : ∀ t → tail-words t ≡ w ∷ ws → IsLawfulTail g t → View w ws
    fails : ∀ {f} → Fails g w ws f → (IsUtf8 w → IsFaultAt g w ws f) → View w ws

  known : ∀ {w ws f} → IsFaultAt g w ws f → View w ws
  known fault = fails (fault-fails g sane fault) λ _ → fault

  free-view : ∀ w ws → is-dashed w ≡ false → View w ws
  free-view w ws plain with g .$style in style
  ... | FloatingFrees = one-word (free w) refl (plain , style) λ ()
  ... | StopAtFirstFree = ends (rest (w ∷ ws)) refl (plain , style)

  -- In long form, this depends on the kind of the name, and on whether an argument is attached or
  -- a word follows.
  long-view : ∀ d t ws → MayPrecede (g .$long-only) d t → t ≢ [] → View (dash-text d ++ t) ws
  long-view d t ws p filled with cut-at-equals t | cut-parts t
  ... | n , a | refl , e = go a ((g .$kind) n) refl ws filled
    where
      before : MayPrecede (g .$long-only) d n
      before = precedes-name _ d n _ p
      item : ∀ a k → (g .$kind) n ≡ Some k → FitsLong k a → IsLawfulLong g d n a
      item a k r fits = mk before e (k , r , fits)
      form : ∀ a → n ++ with-equals a ≢ [] → IsLongForm g (long-word d n a) n a
      form a f = mk d before e refl (not-dashes d f)
      go : ∀ a k → (g .$kind) n ≡ k → ∀ ws → n ++ with-equals a ≢ [] → View (long-word d n a) ws
      go a None r ws f = known (unknown-name n a (form a f) r)
      go (Some x) (Some No) r ws f = known (unwanted-argument n x (form _ f) r)
      go None (Some Yes) r [] f = known (long-unfinished n (form None f) r refl)
      go None (Some Yes) r (w ∷ ws) f =
        two-words (long d n (separate w)) w ws refl refl (item _ Yes r tt) λ ()
      go (Some x) (Some Yes) r ws f =
        one-word (long d n (attached x)) refl (item _ Yes r tt) λ ()
      go (Some x) (Some Maybe) r ws f =
        one-word (long d n (attached x)) refl (item _ Maybe r tt) λ ()
      go None (Some No) r ws f = one-word (long d n none) refl (item _ No r tt) λ ()
      go None (Some Maybe) r ws f = one-word (long d n none) refl (item _ Maybe r tt) λ ()

  -- What follows flags in UTF-8 is UTF-8, because flags are ASCII.
  utf8-after : ∀ c bs t → ¬ (IsHigh c) → Each (IsFlag g) bs → IsUtf8 (c ∷ (bs ++ t)) → IsUtf8 t
  utf8-after c bs t low all u with begins c (bs ++ t) u
  ... | beyond _ _ high _ _ _ = absurd (low high)
  utf8-after c [] t low _ u | ascii _ v = v
  utf8-after c (b ∷ bs) t low (flag , all) u | ascii _ v =
    utf8-after b bs t (λ high → None≢Some (sane .no-high b high) flag) all v

  -- In short form, each byte is a flag, or the option that ends the cluster, or an error.
  short-view : ∀ bs t ws → g .$long-only ≡ false → Each (IsFlag g) bs
    → begins-with-dash (bs ++ t) ≡ false → bs ++ t ≢ [] → View (dash ∷ (bs ++ t)) ws
  short-view bs [] ws mode all plain filled = one-word (cluster bs flags) refl
    (mk mode plain all λ { refl → filled refl }) λ ()
  short-view bs (b ∷ t) ws mode all plain filled = go ((g .$kind) (b ∷ [])) refl t plain ws
    where
      item : ∀ a k → (g .$kind) (b ∷ []) ≡ Some k → FitsEnd k a
        → begins-with-dash (bs ++ end-text (ends-in b a)) ≡ false
        → IsLawfulCluster g bs (ends-in b a)
      item a k r fits plain = mk mode plain all (k , r , fits)
      maybe : ∀ w ws → (g .$kind) (b ∷ []) ≡ Some Maybe → begins-with-dash (bs ++ b ∷ []) ≡ false
        → View (dash ∷ (bs ++ b ∷ [])) (w ∷ ws)
      maybe w ws r plain with is-dashed w in dashed
      ... | true =
        one-word (cluster bs (ends-in b none)) refl (item _ Maybe r refl plain) λ _ → dashed
      ... | false = two-words (cluster bs (ends-in b (separate w))) w ws refl refl
        (item _ Maybe r ((λ ()) , λ _ → dashed) plain) λ ()
      form : ∀ t → begins-with-dash (bs ++ b ∷ t) ≡ false
        → HasAfterFlags g (dash ∷ (bs ++ b ∷ t)) (b ∷ t)
      form t plain = mk bs mode refl plain all
      unknown : ∀ t {w ws} → (g .$kind) (b ∷ []) ≡ None → HasAfterFlags g w (b ∷ t)
        → IsUtf8 (b ∷ t) → IsFaultAt g w ws (unrecognized-option (first-char (b ∷ t)))
      unknown t r after u with begins b t u
      ... | ascii low _ rewrite first-is b t {b ∷ t} (narrow b low) refl =
        unknown-byte b t (ltb→< b 128 low) after r
      ... | beyond c more _ scalar several e rewrite first-is c more refl e =
        wide-character c more scalar several (subst (HasAfterFlags g _) e after)
      go : ∀ k → (g .$kind) (b ∷ []) ≡ k → ∀ t → begins-with-dash (bs ++ b ∷ t) ≡ false
        → ∀ ws → View (dash ∷ (bs ++ b ∷ t)) ws
      go None r t plain ws = fails (unknown-fails g b (form t plain) r refl)
        λ u → unknown t r (form t plain) (utf8-after dash bs (b ∷ t) (λ ()) all u)
      go (Some No) r t plain ws = subst (λ x → View (dash ∷ x) ws) (++-assoc bs (b ∷ []) t)
        (short-view (bs ++ b ∷ []) t ws mode (each-++ bs all (r , tt))
          (subst (λ x → begins-with-dash x ≡ false) (sym (++-assoc bs (b ∷ []) t)) plain)
          (filled-left (bs ++ b ∷ []) (++-filled bs)))
      go (Some Yes) r [] plain [] = known (short-unfinished b (form [] plain) r refl)
      go (Some Yes) r [] plain (w ∷ ws) = two-words (cluster bs (ends-in b (separate w))) w ws
        refl refl (item _ Yes r ((λ ()) , λ ()) plain) λ ()
      go (Some Yes) r (c ∷ t) plain ws = one-word (cluster bs (ends-in b (attached (c ∷ t))))
        refl (item _ Yes r ((λ ()) , λ ()) plain) λ ()
      go (Some Maybe) r (c ∷ t) plain ws = one-word (cluster bs (ends-in b (attached (c ∷ t))))
        refl (item _ Maybe r ((λ ()) , λ ()) plain) λ ()
      go (Some Maybe) r [] plain [] =
        one-word (cluster bs (ends-in b none)) refl (item _ Maybe r refl plain) λ _ → tt
      go (Some Maybe) r [] plain (w ∷ ws) = maybe w ws r plain

  view : ∀ w ws → View w ws
  view [] ws = free-view [] ws refl
  view (c ∷ []) ws = free-view (c ∷ []) ws refl
  view (c ∷ d ∷ t) ws with eqb c dash in e
  ... | false = free-view (c ∷ d ∷ t) ws e
  ... | true rewrite eqb→≡ c dash e with eqb d dash in e₂ | g .$long-only in mode
  ...   | false | true = long-view one (d ∷ t) ws (mode , e₂) λ ()
  ...   | false | false = short-view [] (d ∷ t) ws mode tt e₂ λ ()
  ...   | true | _ rewrite eqb→≡ d dash e₂ = stop-or-long t
    where
      stop-or-long : ∀ t → View (dash ∷ dash ∷ t) ws
      stop-or-long [] = ends (stop ws) refl tt
      stop-or-long (x ∷ t) = long-view two (x ∷ t) ws tt λ ()

  -- What `read` finds has a property if tails and words with an error have it, and if words still
  -- have it after an item is put before them: view the first word, and go on after its item.
  module _ {P : List Text → ReadResult → Set}
    (of-item : ∀ i more o → IsLawfulItem g i → (is-bare i ≡ true → EndsOrIsDashed more)
      → P more o → P (item-words i ++ more) (with-items (i ∷ []) o))
    (of-tail : ∀ t → IsLawfulTail g t → P (tail-words t) (Ok (mk [] t)))
    (of-fault : ∀ {w ws f} → Fails g w ws f → (IsUtf8 w → IsFaultAt g w ws f)
      → P (w ∷ ws) (Err f)) where

    goes-on : ∀ {words} i more → item-words i ++ more ≡ words → IsLawfulItem g i
      → (is-bare i ≡ true → EndsOrIsDashed more) → P more (read g more) → P words (read g words)
    goes-on i more refl lawful f p =
      subst (P _) (sym (item-read g i more sane lawful f)) (of-item i more _ lawful f p)

    by-words : ∀ words → P words (read g words)
    by-words [] = of-tail no-tail tt
    by-words (w ∷ ws) with view w ws
    ... | one-word i is lawful f = goes-on i ws (cong (_++ ws) is) lawful f (by-words ws)
    by-words (w ∷ v ∷ vs) | two-words i v vs refl is lawful f =
      goes-on i vs (cong (_++ vs) is) lawful f (by-words vs)
    ... | ends t is lawful =
      subst (λ x → P x (read g x)) is (subst (P _) (sym (tail-read g t lawful)) (of-tail t lawful))
    ... | fails it at =
      subst (λ s → P (w ∷ ws) (after g s ws)) (sym (fails-step g it)) (of-fault it at)

  -- The result is right for these words: it is a reading or a scan error of them.
  Finds : List Text → ReadResult → Set
  Finds words o = MatchResult o (λ r → IsReading g r words) (IsScanFault g words)

  -- UTF-8 words have a reading or a scan error.
  decided : ∀ words → AreTexts words → Finds words (read g words)
  decided = by-words {λ words o → AreTexts words → Finds words o}
      (λ i more o lawful followed found texts →
        of-item i more lawful followed o (found (each-parts (item-words i) texts .proj₂)))
      (λ t lawful _ → mk refl tt lawful tt)
      λ _ at (u , _) → mk [] _ _ [] refl (mk refl tt tt tt) (at u)
    where
      of-item : ∀ i more → IsLawfulItem g i → (is-bare i ≡ true → EndsOrIsDashed more)
        → ∀ o → Finds more o → Finds (item-words i ++ more) (with-items (i ∷ []) o)
      of-item i more lawful followed (Ok (mk items t)) (mk refl all tail fs) =
        mk refl (lawful , all) tail (followed , fs)
      of-item i more lawful followed (Err f) (mk _ w ws items refl (mk refl all _ fs) fault) =
        mk (item-words i ++ spelled-all items []) w ws (i ∷ items)
          (sym (++-assoc (item-words i) (spelled-all items []) (w ∷ ws)))
          (mk refl (lawful , all) tt ((λ bare → ends-same items (λ _ → tt)
            (subst EndsOrIsDashed (spelled-then items (w ∷ ws)) (followed bare))) , fs))
          fault
