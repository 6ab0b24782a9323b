module Main exposing (..)

import A
