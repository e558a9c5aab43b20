.zero size
