# labels.R FILE EPSILON MIN_SAMPLES: R's dbscan over a file of doubles x, y; prints CPU seconds and points labelled.
suppressPackageStartupMessages(library(dbscan))
words <- commandArgs(trailingOnly = TRUE)
size <- file.info(words[1])$size / 8
points <- matrix(readBin(words[1], "double", n = size), ncol = 2, byrow = TRUE)
# R's clock counts milliseconds: a small map is labelled many times a turn.
times <- if (size < 1e4) 100 else if (size < 1e5) 10 else 1
best <- Inf
for (turn in seq_len(if (size > 1e6) 1 else 3)) {
  start <- proc.time()
  for (again in seq_len(times)) {
    labels <- dbscan(points, eps = as.numeric(words[2]), minPts = as.integer(words[3]))$cluster
  }
  took <- proc.time() - start
  best <- min(best, (took[["user.self"]] + took[["sys.self"]]) / times)
}
cat(best, sum(labels > 0), "\n")
