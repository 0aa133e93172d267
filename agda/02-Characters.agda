{-# OPTIONS --safe --without-K #-}
-- UTF-8: the bytes of a character, and that decoding them gives the character back.
module 02-Characters where

open import 01-Basics

-- Division ----------------------------------------------------------------------------------------

-- Here l + j ≡ m. `div k m n j` is k plus the quotient of l + n by m + 1. `mod l m n j` is the
-- remainder.
divided : ∀ k m n j l → l + j ≡ m
  → div k m n j * suc m + mod l m n j ≡ k * suc m + (l + n)
divided k m zero j l e = cong (k * suc m +_) (sym (+-zero l))
divided k m (suc n) zero l e rewrite sym e | +-zero l | +-suc l n =
  divided (suc k) l n l 0 refl ∙ cong (_+ n) (+-comm (suc l) (k * suc l)) ∙ +-assoc (k * suc l) _ n
divided k m (suc n) (suc j) l e =
  divided k m n j (suc l) (sym (+-suc l j) ∙ e) ∙ cong (k * suc m +_) (sym (+-suc l n))

whole : ∀ c m → (c / suc m) * suc m + c % suc m ≡ c
whole c m = divided 0 m c m 0 refl

left-over : ∀ m n j l → l + j ≡ m → mod l m n j ≤ m
left-over m zero j l e = subst (l ≤_) e (≤-more j ≤-refl)
left-over m (suc n) zero l e = left-over m n m 0 refl
left-over m (suc n) (suc j) l e = left-over m n j (suc l) (sym (+-suc l j) ∙ e)

remainder : ∀ c m → c % suc m ≤ m
remainder c m = left-over m c m 0 refl

-- There is only one quotient.
unique : ∀ m {r r′} q q′ → q * suc m + r ≡ q′ * suc m + r′ → r ≤ m → r′ ≤ m → q ≡ q′
unique m zero zero e p p′ = refl
unique m zero (suc q′) refl p p′ =
  absurd (not-less (≤-trans (≤-more _ (≤-more (q′ * suc m) ≤-refl)) p))
unique m (suc q) zero refl p p′ =
  absurd (not-less (≤-trans (≤-more _ (≤-more (q * suc m) ≤-refl)) p′))
unique m (suc q) (suc q′) e p p′ = cong suc (unique m q q′
  (+-cancel (suc m) (sym (+-assoc (suc m) (q * suc m) _) ∙ e ∙ +-assoc (suc m) (q′ * suc m) _))
  p p′)

quotient : ∀ c q m → c < q * suc m → c / suc m < q
quotient c q m p = cancel (c / suc m) q
  (≤-trans (s≤s (subst (c / suc m * suc m ≤_) (whole c m) (≤-more (c % suc m) ≤-refl))) p)
  where
    cancel : ∀ a b → a * suc m < b * suc m → a < b
    cancel zero (suc b) p = s≤s z≤n
    cancel (suc a) (suc b) p rewrite sym (+-suc m (a * suc m)) =
      s≤s (cancel a b (≤-cancel (suc m) p))

-- c / (64 n) is (c / n) / 64.
twice : ∀ c m m′ → suc m′ ≡ 64 * suc m → 63 * suc m + m ≡ m′ → c / suc m′ ≡ (c / suc m) / 64
twice c m m′ e refl = unique m′ (c / suc m′) q (whole c m′ ∙ sym parts) (remainder c m′)
  (≤-both (times (remainder (c / suc m) 63)) (remainder c m))
  where
    q = (c / suc m) / 64
    r = (c / suc m) % 64
    times : ∀ {a b} → a ≤ b → a * suc m ≤ b * suc m
    times z≤n = z≤n
    times (s≤s p) = ≤-both (≤-refl {suc m}) (times p)
    parts : q * suc m′ + (r * suc m + c % suc m) ≡ c
    parts = cong (_+ (r * suc m + c % suc m)) (cong (q *_) e ∙ sym (*-assoc q 64 (suc m)))
      ∙ sym (+-assoc ((q * 64) * suc m) (r * suc m) _) ∙ cong (_+ c % suc m)
        (sym (*-left (q * 64) r (suc m)) ∙ cong (_* suc m) (whole (c / suc m) 63)) ∙ whole c m

below : ∀ {m n} k → m < n → ltb (k + m) (k + n) ≡ true
below zero p = <→ltb p
below (suc k) p = below k p

-- Characters --------------------------------------------------------------------------------------

narrow : ∀ c → ltb c 128 ≡ true → encode c ≡ c ∷ []
narrow c e rewrite e = refl

IsHigh : ℕ → Set
IsHigh b = ltb b 128 ≡ false

-- A character from 128 up has several bytes, all of them from 128 up.
Wide : ℕ → Set
Wide c = Σ[ first ∈ ℕ ] Σ[ second ∈ ℕ ] Σ[ others ∈ List ℕ ]
  (encode c ≡ first ∷ second ∷ others) × Each IsHigh (encode c)

wide : ∀ c → IsHigh c → Wide c
wide c e rewrite e with ltb c 2048 | ltb c 65536
... | true | _ = _ , _ , _ , refl , refl , refl , tt
... | false | true = _ , _ , _ , refl , refl , refl , refl , tt
... | false | false = _ , _ , _ , refl , refl , refl , refl , refl , tt

not-narrow : ∀ c → 1 < length (encode c) → IsHigh c
not-narrow c p = not-true _ λ low → not-less (subst (λ bytes → 1 < length bytes) (narrow c low) p)

-- Decoding gives the character that was encoded.
decoded : ∀ c more → chars (encode c ++ more) ≡ c ∷ chars more
decoded c more with ltb c 128 in e₁
... | true rewrite e₁ = refl
... | false with ltb c 2048 in e₂
...   | true rewrite below 192 (quotient c 32 63 (ltb→< c 2048 e₂)) | whole c 63 = refl
...   | false with ltb c 65536 in e₃
...     | true rewrite below 224 (quotient c 16 4095 (ltb→< c 65536 e₃))
            | twice c 63 4095 refl refl | whole (c / 64) 63 | whole c 63 = refl
...     | false rewrite twice c 4095 262143 refl refl | whole (c / 4096) 63
            | twice c 63 4095 refl refl | whole (c / 64) 63 | whole c 63 = refl

-- UTF-8 texts, byte by byte -----------------------------------------------------------------------

-- A UTF-8 text begins with an ASCII byte, after which it is UTF-8, or with the bytes of another
-- character.
data Begins (b : ℕ) (t : List ℕ) : Set where
  ascii : ltb b 128 ≡ true → IsUtf8 t → Begins b t
  beyond : ∀ c more → IsHigh b → IsScalar c → 1 < length (encode c) → b ∷ t ≡ encode c ++ more
    → Begins b t

begins : ∀ b t → IsUtf8 (b ∷ t) → Begins b t
begins b t (c ∷ cs , scalars-are , e) with and-true {scalar c} scalars-are
... | s , ss = go (split (ltb c 128))
  where
    one-byte : ltb c 128 ≡ true → c ∷ encodes cs ≡ b ∷ t → Begins b t
    one-byte low refl = ascii low (cs , ss , refl)
    go : (ltb c 128 ≡ true) ⊎ IsHigh c → Begins b t
    go (inl low) = one-byte low (cong (_++ encodes cs) (sym (narrow c low)) ∙ e)
    go (inr is-high) with wide c is-high
    ... | first , second , others , is , high = beyond c (encodes cs)
      (subst IsHigh (cons-head (cong (_++ encodes cs) (sym is) ∙ e))
        (subst (Each IsHigh) is high .proj₁))
      s (subst (λ bytes → 1 < length bytes) (sym is) (s≤s (s≤s z≤n))) (sym e)
