svc
