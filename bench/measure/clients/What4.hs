-- Sessions by what4, one question to a solver each and one with frames: a line for each says what came.
-- usage: what4 PROGRAM    the program to run in z3's place
{-# LANGUAGE DataKinds, GADTs, RankNTypes, ScopedTypeVariables #-}
module Main (main) where

import Control.Exception (SomeException, try)
import Control.Monad.IO.Class (liftIO)
import qualified Data.BitVector.Sized as BV
import Data.Parameterized.NatRepr
import Data.Parameterized.Nonce (newIONonceGenerator)
import Data.Parameterized.Some
import qualified Data.Text as T
import System.Environment (getArgs, setEnv)
import System.IO (hFlush, stdout)
import What4.Config
import What4.Expr
import What4.Interface
import What4.Protocol.Online
import What4.Protocol.SMTLib2 (Writer)
import qualified What4.Protocol.SMTLib2 as SMT2
import What4.ProblemFeatures (useBitvectors)
import What4.SatResult
import What4.Solver
import What4.Solver.Z3 (Z3, z3Path)

data State t = State

type Sym t = ExprBuilder t State (Flags FloatIEEE)

-- A formula to be asked once, with what its model says.
type Question = forall t. Sym t -> IO (BoolExpr t, GroundEvalFn t -> IO String)

word :: IsSymExprBuilder sym => sym -> NatRepr 16 -> String -> IO (SymBV sym 16)
word sym w name = freshConstant sym (safeSymbol name) (BaseBVRepr w)

questions :: [(String, Some16)]
questions =
  [ ("sum", Some16 (\sym -> do
      let w = knownNat :: NatRepr 16
      x <- word sym w "x"
      one <- bvLit sym w (BV.mkBV w 1)
      most <- bvLit sym w (BV.mkBV w 0xffff)
      next <- bvAdd sym x one
      high <- bvEq sym next most
      return (high, \ge -> do { v <- groundEval ge x; return (show (BV.asUnsigned v)) })))
  , ("product", Some16 (\sym -> do
      let w = knownNat :: NatRepr 16
      x <- word sym w "x"
      y <- word sym w "y"
      limit <- bvLit sym w (BV.mkBV w 200)
      one <- bvLit sym w (BV.mkBV w 1)
      number <- bvLit sym w (BV.mkBV w 221)
      product' <- bvMul sym x y
      parts <- sequence [bvEq sym product' number, bvUlt sym x y, bvUlt sym y limit, bvUlt sym one x]
      whole <- foldr (\p q -> q >>= andPred sym p) (return (truePred sym)) parts
      return (whole, \ge -> do { v <- groundEval ge x; u <- groundEval ge y; return (show (BV.asUnsigned v, BV.asUnsigned u)) })))
  , ("nothing", Some16 (\sym -> do
      let w = knownNat :: NatRepr 16
      x <- word sym w "x"
      y <- word sym w "y"
      less <- bvUlt sym x y
      more <- bvUlt sym y x
      both <- andPred sym less more
      return (both, \_ -> return "")))
  , ("shifted", Some16 (\sym -> do
      let w = knownNat :: NatRepr 16
      x <- word sym w "x"
      four <- bvLit sym w (BV.mkBV w 4)
      wanted <- bvLit sym w (BV.mkBV w 0xfabc)
      p <- bvAshr sym x four >>= bvEq sym wanted
      low <- bvLit sym w (BV.mkBV w 15)
      q <- bvAndBits sym x low >>= bvEq sym four
      both <- andPred sym p q
      return (both, \ge -> do { v <- groundEval ge x; return (show (BV.asUnsigned v)) })))
  , ("flag", Some16 (\sym -> do
      let w = knownNat :: NatRepr 16
      p <- freshConstant sym (safeSymbol "p") BaseBoolRepr
      x <- word sym w "x"
      y <- bvLit sym w (BV.mkBV w 7)
      z <- bvLit sym w (BV.mkBV w 9)
      chosen <- bvIte sym p y z
      same <- bvEq sym x chosen
      other <- bvUlt sym y x
      both <- andPred sym same other
      return (both, \ge -> do { v <- groundEval ge x; b <- groundEval ge p; return (show (BV.asUnsigned v, b)) })))
  ]

newtype Some16 = Some16 (forall t. Sym t -> IO (BoolExpr t, GroundEvalFn t -> IO String))

main :: IO ()
main = do
  [program] <- getArgs
  mapM_ (\(name, Some16 question) -> one name (ask program question)) questions
  one "frames" (frames program)

one :: String -> IO String -> IO ()
one name session = do
  setEnv "QV_GOAL" name
  answer <- try (session >>= \s -> length s `seq` return s)
  putStrLn (name ++ ": " ++ either (\e -> "failed: " ++ unwords (lines (show (e :: SomeException)))) id answer)
  hFlush stdout

builder :: String -> (forall t. Sym t -> IO a) -> IO a
builder program act = do
  Some generator <- newIONonceGenerator
  sym <- newExprBuilder FloatIEEERepr State generator
  let config = getConfiguration sym
  extendConfig z3Options config
  path <- getOptionSetting z3Path config
  _ <- setOpt path (T.pack program)
  act sym

ask :: String -> (forall t. Sym t -> IO (BoolExpr t, GroundEvalFn t -> IO String)) -> IO String
ask program question = builder program $ \sym -> do
  (formula, say) <- question sym
  withZ3 sym program defaultLogData $ \session -> do
    SMT2.assume (SMT2.sessionWriter session) formula
    SMT2.runCheckSat session $ \result -> case result of
      Sat (ge, _) -> ("sat " ++) <$> say ge
      Unsat _ -> return "unsat"
      Unknown -> return "unknown"

frames :: String -> IO String
frames program = builder program $ \(sym :: Sym t) -> do
  let w = knownNat :: NatRepr 16
  x <- word sym w "x"
  five <- bvLit sym w (BV.mkBV w 5)
  seven <- bvLit sym w (BV.mkBV w 7)
  low <- bvUlt sym x five
  high <- bvUlt sym seven x
  four <- bvLit sym w (BV.mkBV w 4) >>= bvEq sym x
  process <- startSolverProcess useBitvectors Nothing sym :: IO (SolverProcess t (Writer Z3))
  let conn = solverConn process
      told r = case r of { Sat _ -> "sat"; Unsat _ -> "unsat"; Unknown -> "unknown" }
  inNewFrame process (SMT2.assume conn low)
  a <- inNewFrame process (SMT2.assume conn low >> check process "low")
  b <- inNewFrame process (SMT2.assume conn low >> SMT2.assume conn high >> check process "both")
  c <- inNewFrame process $ do
    SMT2.assume conn low
    SMT2.assume conn four
    r <- checkAndGetModel process "four"
    case r of
      Sat ge -> (\v -> "sat " ++ show (BV.asUnsigned v)) <$> groundEval ge x
      other -> return (told other)
  _ <- shutdownSolverProcess process
  return (unwords [told a, told b, c])
