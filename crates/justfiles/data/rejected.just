build: clean &&
