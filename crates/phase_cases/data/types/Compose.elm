module Compose exposing (..)

f =
    String.length >> (\n -> n + 1)
