module Zebra exposing (..)
