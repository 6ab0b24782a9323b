module Main exposing (..)

import D

x = D.d
