
{- no header -}
import G

e = (
