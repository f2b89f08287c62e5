name := "harbor"
