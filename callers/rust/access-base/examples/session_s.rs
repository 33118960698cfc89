//! Session S of the scope, through the library: prints what the text program prints for the same session.
use access_base::{create, may, request, when, Access, Interval, Order, Refusal, Request, BYTES, PAIRS};

fn print(reply: Result<String, Refusal>) {
    println!("{}", reply.unwrap_or_else(|refusal| format!("refused {}", refusal.number())));
}

fn order(base: &mut [u8], now: u32, requester: u32, order: Order) {
    let reply = request(base, &Request { now, requester, order });
    print(reply.map(|done| format!("done {} {}", done.label.unwrap_or(0), done.authorizations)));
}

fn ask_may(base: &[u8], access: Access, instant: u32) {
    print(may(base, access, instant).map(|yes| if yes { "yes" } else { "no" }.to_string()));
}

fn ask_when(base: &[u8], access: Access) {
    let mut list = [[0; 2]; PAIRS];
    print(when(base, access, &mut list).map(|runs| {
        let texts: Vec<String> = runs.iter().map(|[first, last]| format!("{first}-{last}")).collect();
        if texts.is_empty() {
            "none".to_string()
        } else {
            texts.join(" ")
        }
    }));
}

fn main() -> Result<(), Refusal> {
    let to = |subject| Access { subject, mode: 1, object: 7 };
    let span = |start, end| Interval { start, end };
    let mut base = vec![0; BYTES];
    create(&mut base)?;
    let b = &mut base;
    order(b, 4, 1, Order::New { object: 7 });
    order(b, 4, 1, Order::GrantAdministrator { object: 7, subject: 5 });
    order(b, 5, 1, Order::Grant { access: to(2), interval: span(50, 200), option: true });
    order(b, 50, 5, Order::Grant { access: to(2), interval: span(80, 150), option: true });
    order(b, 55, 2, Order::Grant { access: to(3), interval: span(55, 180), option: true });
    order(b, 60, 3, Order::Deny { access: to(4), interval: span(60, 70) });
    order(b, 61, 1, Order::RevokeGrants { access: to(2), interval: span(60, 200) });
    ask_may(b, to(3), 79);
    ask_when(b, to(3));
    order(b, 61, 3, Order::Grant { access: to(9), interval: span(61, 90), option: false });
    order(b, 60, 1, Order::Revoke { label: 1 });
    Ok(())
}
