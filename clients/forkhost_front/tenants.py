"""Which tenant a user of the web server is, by the file that the settings name. At SSH the words of `authorized_keys` say it."""
from forkhost_client.address import is_tenant
from forkhost_client.faults import Fatal
from forkhost_client.rows import rows

from .settings import Settings


class NoTenant(Exception):
    """The user is nobody's, or there is none."""


def tenant_of(user: str, settings: Settings) -> str:
    if not settings.users:
        raise Fatal(f"'{settings.place}' does not set users")
    if not user:
        raise NoTenant("the web server named no user")
    tenant = rows(settings.users).get(user, "")
    if not is_tenant(tenant):
        raise NoTenant(f"user '{user}' has no tenant here")
    return tenant
