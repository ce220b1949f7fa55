"""An independent reading of the language, which counts the rules that a run uses; README.md says what it is for."""
