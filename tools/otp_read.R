# Readers of what otp reads and writes, in R alone. No promise of Kullaphen rests on this file.
#
#     source("tools/otp_read.R")
#     grammar <- otp_grammar("examples/ranked.otp")
#     answer <- otp_answer(system2("./otp", c("generate", "examples/ranked.otp", shQuote("[ ]")), stdout = TRUE))
#     otp_counts(grammar, answer)
#     otp_how_many(answer)

# The tiers with their roles, and the names of the constraints in ranked order.
otp_grammar <- function(file) {
  words <- strsplit(trimws(gsub("[ \t]+", " ", sub(";.*", "", readLines(file, warn = FALSE)))), " ")
  of <- function(kind) Filter(function(line) length(line) > 1 && line[1] == kind, words)
  tiers <- of("tier")
  list(tiers = vapply(tiers, `[`, "", 2), roles = vapply(tiers, `[`, "", 3),
       constraints = vapply(of("constraint"), `[`, "", 2))
}

# The columns of a class: "{-+}[" gives "-[" and "+[".
otp_columns <- function(class) {
  parts <- regmatches(class, gregexpr("\\{[^}]*\\}|.", class))[[1]]
  sets <- lapply(parts, function(part) strsplit(gsub("[{}]", "", part), "")[[1]])
  apply(expand.grid(sets, stringsAsFactors = FALSE), 1, paste, collapse = "")
}

# The lines of an answer, of `otp show` or of `otp score`. The arcs have a row for each arc line.
otp_answer <- function(lines) {
  word <- sub(" .*", "", lines)
  rest <- ifelse(grepl(" ", lines), sub("^[^ ]* ", "", lines), "")
  states <- which(word == "state")
  arcs <- which(word == "arc")
  owner <- as.integer(sub(" .*", "", rest[states]))[findInterval(arcs, states)]
  list(form = rest[word == "form"], example = rest[word == "example"],
       counts = as.integer(strsplit(rest[word == "counts"], " ")[[1]]),
       states = as.integer(sub(" .*", "", rest[states])), final = grepl(" final$", rest[states]),
       arcs = data.frame(from = owner, to = as.integer(sub(" .*", "", rest[arcs])), class = sub("^[^ ]* ", "", rest[arcs])))
}

# The counts with their names, those that are not 0 first.
otp_counts <- function(grammar, answer) {
  counts <- setNames(answer$counts, grammar$constraints)
  counts[order(counts == 0)]
}

# How many optimal candidates an answer has; Inf if its automaton has a way back.
otp_how_many <- function(answer) {
  sizes <- setNames(rep(NA_real_, length(answer$states)), answer$states)
  arcs <- answer$arcs
  arcs$columns <- vapply(arcs$class, function(class) length(otp_columns(class)), 0L)
  repeat {
    ready <- vapply(answer$states, function(state)
      is.na(sizes[as.character(state)]) && !anyNA(sizes[as.character(arcs$to[arcs$from == state])]), TRUE)
    if (!any(ready)) break
    for (state in answer$states[ready]) {
      own <- arcs[arcs$from == state, ]
      sizes[as.character(state)] <- answer$final[answer$states == state] + sum(own$columns * sizes[as.character(own$to)])
    }
  }
  if (is.na(sizes["0"])) Inf else unname(sizes["0"])
}

# A timeline as text, with a row for each tier.
otp_draw <- function(grammar, timeline) {
  columns <- strsplit(strsplit(timeline, " ")[[1]], "")
  rows <- vapply(seq_along(grammar$tiers), function(tier) {
    symbols <- vapply(columns, `[`, "", tier)
    paste0(ifelse(symbols == "-", " ", ifelse(symbols == "+", "_", symbols)),
           ifelse(symbols %in% c("[", "+", "|"), "___", "   "), collapse = "")
  }, "")
  paste0("  ", format(grammar$tiers), "  ", trimws(rows, "right"))
}
