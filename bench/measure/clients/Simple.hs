-- Sessions by simple-smt: a line for each says what came.
-- usage: simple PROGRAM    the program to run in the solver's place
module Main (main) where

import Control.Exception (SomeException, try)
import SimpleSMT
import System.Environment (getArgs, setEnv)
import System.IO (hFlush, stdout)

bits :: Integer -> SExpr
bits w = tBits w

sessions :: [(String, Solver -> IO String)]
sessions =
  [ ("product", \s -> do
      setLogic s "QF_BV"
      x <- declare s "x" (bits 16)
      y <- declare s "y" (bits 16)
      assert s (eq (bvMul x y) (bvHex 16 221))
      assert s (bvULt x y)
      assert s (bvULt (bvHex 16 1) x)
      assert s (bvULt y (bvHex 16 200))
      a <- check s
      vs <- getConsts s ["x", "y"]
      return (show a ++ " " ++ show vs))
  , ("levels", \s -> do
      setLogic s "QF_BV"
      x <- declare s "x" (bits 8)
      assert s (bvULt x (bvHex 8 5))
      a <- check s
      b <- inNewScope s (assert s (bvULt (bvHex 8 7) x) >> check s)
      push s
      y <- declare s "y" (bits 8)
      assert s (eq y (bvAdd x (bvHex 8 1)))
      assert s (eq x (bvHex 8 4))
      c <- check s
      v <- getExpr s y
      pop s
      d <- check s
      return (unwords [show a, show b, show c, show v, show d]))
  , ("defined", \s -> do
      setLogic s "BV"
      f <- defineFun s "f" [("a", bits 8), ("b", bits 8)] (bits 8) (bvXOr (Atom "a") (bvNot (Atom "b")))
      g <- define s "g" (bits 8) (fun "f" [bvHex 8 0x0f, bvHex 8 0xf0])
      assert s (eq g (bvHex 8 0))
      a <- check s
      assert s (eq (app f [bvHex 8 1, bvHex 8 1]) (bvHex 8 1))
      b <- check s
      return (unwords [show a, show b]))
  , ("flags", \s -> do
      setLogic s "ALL"
      p <- declare s "p" tBool
      q <- declare s "q" tBool
      assert s (implies p q)
      assert s (SimpleSMT.not q)
      a <- check s
      v <- getExpr s p
      ok <- setOptionMaybe s ":verbosity" "0"
      assert s (SimpleSMT.or p q)
      b <- check s
      return (unwords [show a, show v, show ok, show b]))
  , ("quantified", \s -> do
      setLogic s "BV"
      x <- declare s "x" (bits 8)
      assert s (fun "forall" [List [List [Atom "y", bits 8]], bvULeq (Atom "y") x])
      a <- check s
      v <- getExpr s x
      return (unwords [show a, show v]))
  , ("bits", \s -> do
      setLogic s "QF_BV"
      x <- declare s "x" (bits 8)
      let high = extract x 7 4
      assert s (eq high (bvBin 4 10))
      assert s (eq (concat' high) (bvHex 8 0xaa))
      assert s (eq (extract x 3 0) (bvBin 4 5))
      assert s (bvSLt x (bvHex 8 0))
      a <- check s
      v <- getExpr s (signExtend 4 x)
      return (unwords [show a, show v]))
  ]
  where
    app f xs = case f of { Atom n -> fun n xs; _ -> f }
    concat' h = SimpleSMT.concat h h

main :: IO ()
main = do
  program : words' <- getArgs
  mapM_ (one program words') sessions

one :: String -> [String] -> (String, Solver -> IO String) -> IO ()
one program words' (name, session) = do
  setEnv "QV_GOAL" name
  answer <- try (do
    s <- newSolver program words' Nothing
    said <- session s
    _ <- length said `seq` stop s
    return said)
  putStrLn (name ++ ": " ++ either (\e -> "failed: " ++ unwords (lines (show (e :: SomeException)))) id answer)
  hFlush stdout
