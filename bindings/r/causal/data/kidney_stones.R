kidney_stones <- data.frame(
  S = rep(c("small", "large"), each = 4),
  T = rep(c("A", "A", "B", "B"), 2),
  R = rep(c("success", "failure"), 4),
  count = c(81L, 6L, 234L, 36L, 192L, 71L, 55L, 25L)
)
