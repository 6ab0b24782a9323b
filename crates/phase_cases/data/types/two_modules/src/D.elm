module D exposing (d)

import B
import C

d = B.b
