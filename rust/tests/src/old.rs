//! Stores of before L8, as calls and cuts leave them where a set may write an object's own number.

use calls::{Lent, Server};
use model::layout::Areas;
use model::{Fault, Model};

use crate::actions::Action;
use crate::generate::{old_style, Generator, Style, PLAIN};
use crate::random::Random;

/// Such a store, in the midst of its calls or cut from them.
pub fn store(pages: usize, records: usize, random: &mut Random) -> Areas {
    let mut model = Model { fault: Fault::OwnNumbersTaken, ..Model::new(pages, records) };
    model.format().unwrap();
    let crowd = random.between(1, 4);
    let style = old_style(Style { lengths: 0, own: 40, crowd, ..PLAIN }, random);
    let mut generator = Generator::new(Random::new(random.next()), style, pages).going_on();
    for _ in 0..random.between(50, 350) {
        let action = generator.next(&model.areas);
        follow(&mut model, &action);
    }
    if random.percent(30) {
        model.cut();
    }
    model.areas
}

/// A call or a cut.
fn follow(model: &mut Model, action: &Action) {
    match action {
        Action::Call(request) => {
            let image = request.image(&model.areas.received, &model.areas.copies);
            let mut buffer = vec![0; request.buffer()];
            model.perform(request.call, Lent { buffer: &mut buffer, image: &image });
        }
        _ => model.cut(),
    }
}
