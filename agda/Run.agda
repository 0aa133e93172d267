{-# OPTIONS --safe --without-K #-}
-- The definitions that run.js runs.
module Run where

open import Base
open import Definitions using
  ( group-of; parse-result; parse-ignoring-counts-result; counted-result; canonical-result
  ; parse-in-order-result; order-or-error; trace; given-in; fault-in; opt-place; is-present
  ; occurrences-of-group; occurrences-of-name; positions-of; values-of; pairs-of; first-value
  ; first-value-or; first-value-among; fault-text )
open import Columns using
  ( usage-in-result; usage-result; usage-rows-result; short-usage-text; description-rows )
