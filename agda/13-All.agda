{-# OPTIONS --safe --without-K #-}
-- All lemmas of src/laws.rt. In gen/Statement.agda, translate.py writes a record of the clauses of
-- each lemma, and `Laws`, the record of all lemmas. Clauses about columns hold for any function in
-- the place of the widths of `unicode_width`.
import Base
module 13-All (str-width : Base.Bool → Base.List Base.ℕ → Base.ℕ) where

open import Definitions
open import 01-Basics
open import 05-Resolved
open import Statement str-width
import 06-Accepted
import 07-Canonical
import 08-Laws
import 09-Computed
import 10-Loops
import 10-Rows

module _ (options : Declared) where
  private
    gs = options .$groups
    ns = names-of gs

  -- The theorem needs that each group has a name, and that none is a byte of a longer character.
  main-theorem : Each IsNamed ns → OneReadingOneCanonicalLine options
  main-theorem named = λ where
      .$one-reading → one-reading
      .$one-reading-in-each → one-reading-in-each
      .$accepted → accepted
      .$refused → refused
      .$results → 09-Computed.has-results options named
      .$holds-same → one-content-holds-same
      .$one-line-one-content → one-line-one-content
      .$canonical-lines words → canonical-lines
      .$line-laws → line-laws
      .$read-again → lines-read-again
      .$reading-laws → 08-Laws.keeps-reading-laws g sane
      .$sound words content → sound
    where
      open 06-Accepted.Named options named
      open 07-Canonical.Lines options named

  -- Options that may be declared have such names.
  declared-named : MayBeDeclared gs → Each IsNamed ns
  declared-named declared = each-map is-named _ (valid-groups gs declared)

  declared-theorem : MayBeDeclared gs → OneReadingOneCanonicalLine options
  declared-theorem declared = main-theorem (declared-named declared)

  loop-gives : MayBeDeclared gs → ∀ line → _
  loop-gives declared = 10-Loops.loop-gives options (sane-groups options (declared-named declared))

  names-resolve : MayBeDeclared gs → NamesResolve options
  names-resolve declared = mk (main-name-resolves ns) (one-byte-is-short ns valid)
      (empty-resolves-not ns (each-map is-named ns valid)) declared
    where valid = valid-groups gs declared

  -- An added group with valid names, and a short one in UTF-8, keeps this premise.
  declared-with : ∀ group → MayBeDeclared gs → IsValid (group .$signature .$names)
    → MayBeDeclared (with-group options group .$groups)
  declared-with group (mk named shorts) (valid , utf8) =
    mk (each-++ gs named (valid , tt)) (each-++ gs shorts (utf8 , tt))

laws : Laws
laws = λ where
    .$one-reading-one-canonical-line → declared-theorem
    .$declared-options-keep-laws → λ where
      .$reading-laws options declared → declared-theorem options declared .$reading-laws
      .$line-laws options declared → declared-theorem options declared .$line-laws
      .$holds-same options declared → declared-theorem options declared .$holds-same
      .$one-reading options declared → declared-theorem options declared .$one-reading
      .$accepted options declared → declared-theorem options declared .$accepted
      .$refused options declared → declared-theorem options declared .$refused
      .$one-line-one-content options declared →
        declared-theorem options declared .$one-line-one-content
    .$names-resolve → names-resolve
    .$held-names-resolve options matches declared same →
      let is = sym (held-are (matches .$groups) same) ; facts = names-resolve options declared in
      mk (subst MainNameResolves is (facts .$main-name))
        (subst OneByteIsShort is (facts .$one-byte)) (subst EmptyResolvesNot is (facts .$empty))
    .$equal-input-equal-results → mk 09-Computed.one-parse-result 09-Computed.one-canonical-result
    .$results-are-computed → mk λ options words declared →
      declared-theorem options declared .$results words
    .$traces-are-orders → mk (λ options line declared → loop-gives options declared line .proj₁)
      (λ options line fault declared → loop-gives options declared line .proj₂ fault)
    .$usage-texts-are-computed → mk usage-text-is usage-rows description fewest-rows
  where open 10-Rows str-width
