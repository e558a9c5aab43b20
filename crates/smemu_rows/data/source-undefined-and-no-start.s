b nowhere
