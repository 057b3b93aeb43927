"""Twelve texts as other programs have them, shortened, with what a person finds at some places of each. The ten that
are no templates are valid YAML; what the places hold is found by hand, from YAML 1.2.2 and from what the program says
of its own tags."""

from __future__ import annotations

from typing import NamedTuple


class Typical(NamedTuple):
    """A text, the options with which it is imported, and what is at some places. None where it is a template, which is
    to be filled in first."""

    name: str
    text: str
    options: tuple[str, ...]
    places: "dict[str, str] | None"


YAML = ("--from", "yaml")

TYPICAL = [
    Typical("compose", """\
x-logging: &logging
  driver: json-file
  options: {max-size: 10m}
services:
  web:
    image: nginx:1.25
    logging: *logging
    ports: ["80:80", 443:443]
  db:
    image: postgres
    logging: {<<: *logging, driver: local}
""", YAML, {"/services/web/logging/driver": "json-file", "/services/db/logging/driver": "local",
            "/services/db/logging/options/max-size": "10m", "/services/web/ports/1": "443:443"}),
    Typical("gitlab", """\
.setup: {script: [apt-get update, make deps]}
.defaults: &defaults
  retry: 2
  tags: [docker]
test:
  <<: *defaults
  script:
    - !reference [.setup, script]
    - make test
""", YAML, {"/test/retry": "2", "/test/tags/0": "docker", "/test/script/0/0": ".setup", "/test/script/1": "make test"}),
    Typical("rails", """\
default: &default
  adapter: postgresql
  pool: 5
development:
  <<: *default
  database: app_development
production:
  <<: *default
  pool: 20
""", YAML, {"/development/adapter": "postgresql", "/production/pool": "20", "/development/pool": "5"}),
    Typical("cloudformation", """\
Resources:
  Bucket:
    Type: AWS::S3::Bucket
    Properties:
      BucketName: !Sub "${AWS::StackName}-files"
Outputs:
  Name: {Value: !Ref Bucket}
""", YAML, {"/Resources/Bucket/Properties/BucketName": "${AWS::StackName}-files", "/Outputs/Name/Value": "Bucket"}),
    Typical("home-assistant", """\
homeassistant:
  name: Home
  latitude: !secret latitude
automation: !include automations.yaml
""", YAML, {"/homeassistant/latitude": "latitude", "/automation": "automations.yaml"}),
    Typical("vault", """\
user: app
password: !vault |
  $ANSIBLE_VAULT;1.1;AES256
  6162636465
""", YAML, {"/user": "app", "/password": "$ANSIBLE_VAULT;1.1;AES256\n6162636465\n"}),
    Typical("mkdocs", """\
site_name: Docs
markdown_extensions:
  - pymdownx.emoji:
      emoji_index: !!python/name:material.extensions.emoji.twemoji
""", YAML, {"/site_name": "Docs"}),
    Typical("kubernetes", """\
apiVersion: v1
kind: Service
metadata: {name: web}
---
apiVersion: apps/v1
kind: Deployment
metadata: {name: web}
spec: {replicas: 3}
""", (*YAML, "--document", "2"), {"/kind": "Deployment", "/spec/replicas": "3"}),
    Typical("github", """\
on:
  push: {branches: [main]}
jobs:
  test:
    runs-on: ubuntu-latest
    steps:
      - uses: actions/checkout@v4
      - run: |
          make
          make test
""", (), {"/on/push/branches/0": "main", "/jobs/test/steps/1/run": "make\nmake test\n"}),
    Typical("prometheus", """\
global: {scrape_interval: 15s}
scrape_configs:
  - job_name: node
    static_configs:
      - targets: ['localhost:9100']
""", (), {"/scrape_configs/0/static_configs/0/targets/0": "localhost:9100", "/global/scrape_interval": "15s"}),
    Typical("helm", """\
replicas: {{ .Values.replicas }}
{{- if .Values.ingress }}
ingress: true
{{- end }}
""", YAML, None),
    Typical("jinja", """\
{% for host in hosts %}
{{ host }}: up
{% endfor %}
""", YAML, None),
]  # fmt: skip
